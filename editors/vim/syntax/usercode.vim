" Made by tools/editors from the tables.
if exists("b:current_syntax")
  finish
endif
syn case match
syn match usercodeFault "\v%(^|[; \t])@1<=[^;() \t*][^;()]*\ze;"
syn match usercodeNumber "\v\d+" contained
syn match usercodeHeading "\v%(^|[;) \t])@1<=%(PROGRAM%( *V *\d+)?|P *\d+%( *V *\d+)?|FINISH)\ze *%([;(]|$)" contains=usercodeNumber
syn match usercodeFill "\v%(^|[;) \t])@1<=[*]\ze *%([;(]|$)"
syn match usercodeReference "\v%(^|[;) \t])@1<=\d+\ze *%([;(]|$)"
syn match usercodeNest "\v%(^|[;) \t])@1<=%(DUMMY|ERASE|DUP|DUPD|REV|REVD|CAB|PERM|ZERO)\ze *%([;(]|$)" contains=usercodeNumber
syn match usercodeBits "\v%(^|[;) \t])@1<=%(AND|OR|NOT|NEV|BITS)\ze *%([;(]|$)" contains=usercodeNumber
syn match usercodeArithmetic "\v%(^|[;) \t])@1<=%(NEG|ABS|[+]%( *D)?|[-]%( *D)?|XD|CONT|STR|NEGD|DIVI|TOB|FRB)\ze *%([;(]|$)" contains=usercodeNumber
syn match usercodeLinks "\v%(^|[;) \t])@1<=%(LINK|[=]%( *LINK| *TR)|VR|OUT)\ze *%([;(]|$)" contains=usercodeNumber
syn match usercodeWords "\v%(^|[;) \t])@1<=%(M *\d+ *M *\d+%( *Q| *H| *QH| *N| *QN| *HN| *QHN)?|[=] *M *\d+ *M *\d+%( *Q| *H| *QH| *N| *QN| *HN| *QHN)?)\ze *%([;(]|$)" contains=usercodeNumber
syn match usercodeQStores "\v%(^|[;) \t])@1<=%(Q *\d+|C *\d+|I *\d+|M%( *\d+| *[+] *I *\d+| *[-] *I *\d+)|[=]%( *Q *\d+| *C *\d+| *I *\d+| *M *\d+| *[+]%( *Q *\d+| *C *\d+| *I *\d+| *M *\d+)| *RC *\d+| *RI *\d+| *RM *\d+)|NC *\d+|DC *\d+)\ze *%([;(]|$)" contains=usercodeNumber
syn match usercodeCopies "\v%(^|[;) \t])@1<=%(M *\d+ *TOQ *\d+|I *\d+ *TOQ *\d+|IM *\d+ *TOQ *\d+|C *\d+ *TOQ *\d+|CM *\d+ *TOQ *\d+|CI *\d+ *TOQ *\d+|Q *\d+ *TOQ *\d+)\ze *%([;(]|$)" contains=usercodeNumber
syn match usercodeShifts "\v%(^|[;) \t])@1<=%(SHA%( *\d+| *[+] *\d+| *[-] *\d+)|SHAC *\d+|SHL%( *\d+| *[+] *\d+| *[-] *\d+)|SHLC *\d+|SHC%( *\d+| *[+] *\d+| *[-] *\d+)|SHCC *\d+|SHAD%( *\d+| *[+] *\d+| *[-] *\d+)|SHADC *\d+|SHLD%( *\d+| *[+] *\d+| *[-] *\d+)|SHLDC *\d+)\ze *%([;(]|$)" contains=usercodeNumber
syn match usercodeJumps "\v%(^|[;) \t])@1<=%(J *\d+%( *C *\d+%( *NZS| *Z| *NZ)| *P *\d+%( *C *\d+%( *Z| *NZ)| *[=]%( *Z)?| *[#]%( *Z)?| *GTZ| *LTZ| *GEZ| *LEZ| *V| *NV| *TR| *NTR| *EN| *NEN| *EJ| *NEJ)?| *[=]%( *Z)?| *[#]%( *Z)?| *GTZ| *LTZ| *GEZ| *LEZ| *V| *NV| *TR| *NTR| *EN| *NEN| *EJ| *NEJ)?|JP *\d+%( *C *\d+%( *Z| *NZ)| *[=]%( *Z)?| *[#]%( *Z)?| *GTZ| *LTZ| *GEZ| *LEZ| *V| *NV| *TR| *NTR| *EN| *NEN| *EJ| *NEJ)?|JS *\d+%( *P *\d+)?|JSP *\d+|EXIT%( *\d+)?)\ze *%([;(]|$)" contains=usercodeNumber
syn match usercodeDevices "\v%(^|[;) \t])@1<=%(PRQ *\d+|PREQ *\d+|PWQ *\d+|PWEQ *\d+|CRQ *\d+|LPQ *\d+|LPEQ *\d+|MFRQ *\d+|MBRQ *\d+|MWQ *\d+|MLWQ *\d+|MRWDQ *\d+|MFSKQ *\d+|MBSKQ *\d+)\ze *%([;(]|$)" contains=usercodeNumber
syn match usercodeTests "\v%(^|[;) \t])@1<=%(BUSYQ *\d+|TLOQ *\d+|PARQ *\d+|MBTQ *\d+|MLBQ *\d+|INTQ *\d+)\ze *%([;(]|$)" contains=usercodeNumber
syn match usercodeStores "\v%(^|[;) \t])@1<=%(E *\d+%( *M *\d+%( *Q)?)?|V *\d+%( *M *\d+%( *Q)?| *P *\d+%( *M *\d+%( *Q)?)?)?|Y *[A-Z]? *\d+%( *M *\d+%( *Q)?)?|[=]%( *E *\d+%( *M *\d+%( *Q)?)?| *V *\d+%( *M *\d+%( *Q)?| *P *\d+%( *M *\d+%( *Q)?)?)?| *Y *[A-Z]? *\d+%( *M *\d+%( *Q)?)?))\ze *%([;(]|$)" contains=usercodeNumber
syn match usercodeConstants "\v%(^|[;) \t])@1<=SET%( *\d+| *[+] *\d+| *[-] *\d+| *B *[0-7]+| *AV *\d+%( *P *\d+)?| *AY *[A-Z]? *\d+)\ze *%([;(]|$)" contains=usercodeNumber
syn match usercodeFloating "\v%(^|[;) \t])@1<=%([+]%( *F| *DF)|[-]%( *F| *DF)|XF|X *[+] *F|DIVF|NEGF|ABSF|MAXF|SIGNF|FLOAT|FLOATD|FIX|ROUNDF|ROUNDHF|STAND|XDF|DIVDF|NEGDF)\ze *%([;(]|$)"
syn match usercodeConstant "\v%(^|[;) \t])@1<=V *\d+ *[=] *\ze[-+]? *\d+ *%([;(]|$)" nextgroup=usercodeValueNumber
syn match usercodeValueNumber "\v[-+]? *\d+\ze *%([;(]|$)" contained
syn match usercodeConstant "\v%(^|[;) \t])@1<=V *\d+ *[=] *\zeB *[0-7]+ *%([;(]|$)" nextgroup=usercodeValueOctal
syn match usercodeValueOctal "\vB *[0-7]+\ze *%([;(]|$)" contained
syn match usercodeConstant "\v%(^|[;) \t])@1<=V *\d+ *[=] *\zeQ *%([-+]? *\d+|A *%(V|Y[A-Z]?) *\d+%( *P *\d+)?) */ *%([-+]? *\d+|A *%(V|Y[A-Z]?) *\d+%( *P *\d+)?) */ *%([-+]? *\d+|A *%(V|Y[A-Z]?) *\d+%( *P *\d+)?) *%([;(]|$)" nextgroup=usercodeValueQStore
syn match usercodeValueQStore "\vQ *%([-+]? *\d+|A *%(V|Y[A-Z]?) *\d+%( *P *\d+)?) */ *%([-+]? *\d+|A *%(V|Y[A-Z]?) *\d+%( *P *\d+)?) */ *%([-+]? *\d+|A *%(V|Y[A-Z]?) *\d+%( *P *\d+)?)\ze *%([;(]|$)" contained
syn match usercodeConstant "\v%(^|[;) \t])@1<=V *\d+ *[=] *\zeP[^;()]+ *%([;(]|$)" nextgroup=usercodeValueCharacters
syn match usercodeValueCharacters "\vP[^;()]+\ze *%([;(]|$)" contained
syn region usercodeComment start=/(/ end=/)/
syn sync minlines=200
hi def link usercodeFault Error
hi def link usercodeNumber Number
hi def link usercodeComment Comment
hi def link usercodeHeading Keyword
hi def link usercodeFill Special
hi def link usercodeReference Label
hi def link usercodeNest Function
hi def link usercodeBits Function
hi def link usercodeArithmetic Function
hi def link usercodeLinks Function
hi def link usercodeWords Function
hi def link usercodeQStores Function
hi def link usercodeCopies Function
hi def link usercodeShifts Function
hi def link usercodeJumps Conditional
hi def link usercodeDevices Function
hi def link usercodeTests Function
hi def link usercodeStores Identifier
hi def link usercodeConstants Function
hi def link usercodeFloating Error
hi def link usercodeValueNumber Number
hi def link usercodeValueOctal Number
hi def link usercodeValueQStore Number
hi def link usercodeValueCharacters String
hi def link usercodeConstant Identifier
let b:current_syntax = "usercode"
