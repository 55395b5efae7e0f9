if exists("b:did_ftplugin")
  finish
endif
let b:did_ftplugin = 1
setlocal commentstring=(%s) comments= expandtab shiftwidth=2 fileformat=unix
let b:undo_ftplugin = "setlocal commentstring< comments< expandtab< shiftwidth< fileformat<"
compiler kdf9
