" :make shows the faults of a deck, and of a job also where its programs failed or stopped. g:kdf9 is the command, if it isn't kdf9 or that of this folder.
if exists("current_compiler")
  finish
endif
let current_compiler = "kdf9"
let s:here = resolve(expand("<sfile>:p:h") . "/../../../kdf9")
let s:kdf9 = get(g:, "kdf9", executable(s:here) ? s:here : "kdf9")
if &filetype ==# "kdf9job"
  let &l:makeprg = s:kdf9 . " explain %:S"
else
  let &l:makeprg = s:kdf9 . " lsp --faults %:S"
endif
CompilerSet errorformat=%f:%l:%c:\ %m,%-G%.%#
