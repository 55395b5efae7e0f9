" Made by tools/editors from the tables.
if exists("b:current_syntax")
  finish
endif
syn case match
syn include @usercode syntax/usercode.vim
unlet! b:current_syntax
syn match kdf9jobFault "\v^.+$"
syn match kdf9jobNumber "\v\d+" contained
syn match kdf9jobHeader "\v%^KDF9 JOB 1$"
syn match kdf9jobLine "\v^SLOT \d+$" contains=kdf9jobNumber
syn match kdf9jobLine "\v^STORE \d+$" contains=kdf9jobNumber
syn match kdf9jobLine "\v^SERVICE$" contains=kdf9jobNumber
syn match kdf9jobLine "\v^%(DEVICE \d+ %(TR|TP|CR|LP|MT)|DEVICE \d+ MT [A-Z0-9]+)$" contains=kdf9jobNumber
syn match kdf9jobLine "\v^SHOW \d+ \d+$" contains=kdf9jobNumber
syn match kdf9jobLine "\v^POOL$" contains=kdf9jobNumber
syn match kdf9jobLine "\v^SCHEDULE$" contains=kdf9jobNumber
syn match kdf9jobLine "\v^ORDERS \d+$" contains=kdf9jobNumber
syn match kdf9jobLine "\v^MOVE \d+ \d+$" contains=kdf9jobNumber
syn match kdf9jobLine "\v^END \d+$" contains=kdf9jobNumber
syn match kdf9jobLine "\v^CLOCK \d+$" contains=kdf9jobNumber
syn match kdf9jobLine "\v^SWAP \d+ \d+$" contains=kdf9jobNumber
syn match kdf9jobLine "\v^ENDJOB$" contains=kdf9jobNumber
syn match kdf9jobMedium "\v^[+].*$"
syn match kdf9jobMarked "\v^[=].*$"
syn region kdf9jobDeck matchgroup=kdf9jobHeader start="^DECK$" end="^ENDDECK$" keepend contains=@usercode
syn sync fromstart
hi def link kdf9jobFault Error
hi def link kdf9jobNumber Number
hi def link kdf9jobHeader PreProc
hi def link kdf9jobLine Statement
hi def link kdf9jobMedium String
hi def link kdf9jobMarked Special
let b:current_syntax = "kdf9job"
