;;; kdf9-tables.el --- Statements of Usercode and lines of a job  -*- lexical-binding: t; -*-

;;; Commentary:

;; Made by tools/editors from the tables.

;;; Code:

(defconst kdf9-statements
  '(("\\(?:PROGRAM\\(?: *V *[0-9]+\\)?\\|P *[0-9]+\\(?: *V *[0-9]+\\)?\\|FINISH\\)" . font-lock-keyword-face)
    ("[*]" . font-lock-preprocessor-face)
    ("[0-9]+" . font-lock-constant-face)
    ("\\(?:DUMMY\\|ERASE\\|DUP\\|DUPD\\|REV\\|REVD\\|CAB\\|PERM\\|ZERO\\)" . font-lock-function-name-face)
    ("\\(?:AND\\|OR\\|NOT\\|NEV\\|BITS\\)" . font-lock-function-name-face)
    ("\\(?:NEG\\|ABS\\|[+]\\(?: *D\\)?\\|[-]\\(?: *D\\)?\\|XD\\|CONT\\|STR\\|NEGD\\|DIVI\\|TOB\\|FRB\\)" . font-lock-function-name-face)
    ("\\(?:LINK\\|[=]\\(?: *LINK\\| *TR\\)\\|VR\\|OUT\\)" . font-lock-function-name-face)
    ("\\(?:M *[0-9]+ *M *[0-9]+\\(?: *Q\\| *H\\| *QH\\| *N\\| *QN\\| *HN\\| *QHN\\)?\\|[=] *M *[0-9]+ *M *[0-9]+\\(?: *Q\\| *H\\| *QH\\| *N\\| *QN\\| *HN\\| *QHN\\)?\\)" . font-lock-function-name-face)
    ("\\(?:Q *[0-9]+\\|C *[0-9]+\\|I *[0-9]+\\|M\\(?: *[0-9]+\\| *[+] *I *[0-9]+\\| *[-] *I *[0-9]+\\)\\|[=]\\(?: *Q *[0-9]+\\| *C *[0-9]+\\| *I *[0-9]+\\| *M *[0-9]+\\| *[+]\\(?: *Q *[0-9]+\\| *C *[0-9]+\\| *I *[0-9]+\\| *M *[0-9]+\\)\\| *RC *[0-9]+\\| *RI *[0-9]+\\| *RM *[0-9]+\\)\\|NC *[0-9]+\\|DC *[0-9]+\\)" . font-lock-function-name-face)
    ("\\(?:M *[0-9]+ *TOQ *[0-9]+\\|I *[0-9]+ *TOQ *[0-9]+\\|IM *[0-9]+ *TOQ *[0-9]+\\|C *[0-9]+ *TOQ *[0-9]+\\|CM *[0-9]+ *TOQ *[0-9]+\\|CI *[0-9]+ *TOQ *[0-9]+\\|Q *[0-9]+ *TOQ *[0-9]+\\)" . font-lock-function-name-face)
    ("\\(?:SHA\\(?: *[0-9]+\\| *[+] *[0-9]+\\| *[-] *[0-9]+\\)\\|SHAC *[0-9]+\\|SHL\\(?: *[0-9]+\\| *[+] *[0-9]+\\| *[-] *[0-9]+\\)\\|SHLC *[0-9]+\\|SHC\\(?: *[0-9]+\\| *[+] *[0-9]+\\| *[-] *[0-9]+\\)\\|SHCC *[0-9]+\\|SHAD\\(?: *[0-9]+\\| *[+] *[0-9]+\\| *[-] *[0-9]+\\)\\|SHADC *[0-9]+\\|SHLD\\(?: *[0-9]+\\| *[+] *[0-9]+\\| *[-] *[0-9]+\\)\\|SHLDC *[0-9]+\\)" . font-lock-function-name-face)
    ("\\(?:J *[0-9]+\\(?: *C *[0-9]+\\(?: *NZS\\| *Z\\| *NZ\\)\\| *P *[0-9]+\\(?: *C *[0-9]+\\(?: *Z\\| *NZ\\)\\| *[=]\\(?: *Z\\)?\\| *[#]\\(?: *Z\\)?\\| *GTZ\\| *LTZ\\| *GEZ\\| *LEZ\\| *V\\| *NV\\| *TR\\| *NTR\\| *EN\\| *NEN\\| *EJ\\| *NEJ\\)?\\| *[=]\\(?: *Z\\)?\\| *[#]\\(?: *Z\\)?\\| *GTZ\\| *LTZ\\| *GEZ\\| *LEZ\\| *V\\| *NV\\| *TR\\| *NTR\\| *EN\\| *NEN\\| *EJ\\| *NEJ\\)?\\|JP *[0-9]+\\(?: *C *[0-9]+\\(?: *Z\\| *NZ\\)\\| *[=]\\(?: *Z\\)?\\| *[#]\\(?: *Z\\)?\\| *GTZ\\| *LTZ\\| *GEZ\\| *LEZ\\| *V\\| *NV\\| *TR\\| *NTR\\| *EN\\| *NEN\\| *EJ\\| *NEJ\\)?\\|JS *[0-9]+\\(?: *P *[0-9]+\\)?\\|JSP *[0-9]+\\|EXIT\\(?: *[0-9]+\\)?\\)" . font-lock-builtin-face)
    ("\\(?:PRQ *[0-9]+\\|PREQ *[0-9]+\\|PWQ *[0-9]+\\|PWEQ *[0-9]+\\|CRQ *[0-9]+\\|LPQ *[0-9]+\\|LPEQ *[0-9]+\\|MFRQ *[0-9]+\\|MBRQ *[0-9]+\\|MWQ *[0-9]+\\|MLWQ *[0-9]+\\|MRWDQ *[0-9]+\\|MFSKQ *[0-9]+\\|MBSKQ *[0-9]+\\)" . font-lock-function-name-face)
    ("\\(?:BUSYQ *[0-9]+\\|TLOQ *[0-9]+\\|PARQ *[0-9]+\\|MBTQ *[0-9]+\\|MLBQ *[0-9]+\\|INTQ *[0-9]+\\)" . font-lock-function-name-face)
    ("\\(?:E *[0-9]+\\(?: *M *[0-9]+\\(?: *Q\\)?\\)?\\|V *[0-9]+\\(?: *M *[0-9]+\\(?: *Q\\)?\\| *P *[0-9]+\\(?: *M *[0-9]+\\(?: *Q\\)?\\)?\\)?\\|Y *[A-Z]? *[0-9]+\\(?: *M *[0-9]+\\(?: *Q\\)?\\)?\\|[=]\\(?: *E *[0-9]+\\(?: *M *[0-9]+\\(?: *Q\\)?\\)?\\| *V *[0-9]+\\(?: *M *[0-9]+\\(?: *Q\\)?\\| *P *[0-9]+\\(?: *M *[0-9]+\\(?: *Q\\)?\\)?\\)?\\| *Y *[A-Z]? *[0-9]+\\(?: *M *[0-9]+\\(?: *Q\\)?\\)?\\)\\)" . font-lock-variable-name-face)
    ("SET\\(?: *[0-9]+\\| *[+] *[0-9]+\\| *[-] *[0-9]+\\| *B *[0-7]+\\| *AV *[0-9]+\\(?: *P *[0-9]+\\)?\\| *AY *[A-Z]? *[0-9]+\\)" . font-lock-function-name-face)
    ("\\(?:[+]\\(?: *F\\| *DF\\)\\|[-]\\(?: *F\\| *DF\\)\\|XF\\|X *[+] *F\\|DIVF\\|NEGF\\|ABSF\\|MAXF\\|SIGNF\\|FLOAT\\|FLOATD\\|FIX\\|ROUNDF\\|ROUNDHF\\|STAND\\|XDF\\|DIVDF\\|NEGDF\\)" . font-lock-warning-face)
    ("V *[0-9]+ *[=] *[-+]? *[0-9]+" . font-lock-constant-face)
    ("V *[0-9]+ *[=] *B *[0-7]+" . font-lock-constant-face)
    ("V *[0-9]+ *[=] *Q *\\(?:[-+]? *[0-9]+\\|A *\\(?:V\\|Y[A-Z]?\\) *[0-9]+\\(?: *P *[0-9]+\\)?\\) */ *\\(?:[-+]? *[0-9]+\\|A *\\(?:V\\|Y[A-Z]?\\) *[0-9]+\\(?: *P *[0-9]+\\)?\\) */ *\\(?:[-+]? *[0-9]+\\|A *\\(?:V\\|Y[A-Z]?\\) *[0-9]+\\(?: *P *[0-9]+\\)?\\)" . font-lock-constant-face)
    ("V *[0-9]+ *[=] *P[^;()]+" . font-lock-string-face))
  "Patterns of statements, each with its face.")

(defconst kdf9-lines
  '(("SLOT [0-9]+" . font-lock-keyword-face)
    ("STORE [0-9]+" . font-lock-keyword-face)
    ("DECK" . font-lock-keyword-face)
    ("ENDDECK" . font-lock-keyword-face)
    ("SERVICE" . font-lock-keyword-face)
    ("\\(?:DEVICE [0-9]+ \\(?:TR\\|TP\\|CR\\|LP\\|MT\\)\\|DEVICE [0-9]+ MT [A-Z0-9]+\\)" . font-lock-keyword-face)
    ("SHOW [0-9]+ [0-9]+" . font-lock-keyword-face)
    ("POOL" . font-lock-keyword-face)
    ("SCHEDULE" . font-lock-keyword-face)
    ("ORDERS [0-9]+" . font-lock-keyword-face)
    ("MOVE [0-9]+ [0-9]+" . font-lock-keyword-face)
    ("END [0-9]+" . font-lock-keyword-face)
    ("CLOCK [0-9]+" . font-lock-keyword-face)
    ("SWAP [0-9]+ [0-9]+" . font-lock-keyword-face)
    ("ENDJOB" . font-lock-keyword-face)
    ("[+].*" . font-lock-string-face)
    ("[=].*" . font-lock-string-face))
  "Patterns of lines of a job, each with its face.")

(defconst kdf9-header "KDF9 JOB 1"
  "The first line of a job.")

(defconst kdf9-names '("+" "+D" "-" "-D" "=+C" "=+I" "=+M" "=+Q" "=C" "=E" "=EM" "=EMQ" "=I" "=LINK" "=M" "=MM" "=MMH" "=MMHN" "=MMN" "=MMQ" "=MMQH" "=MMQHN" "=MMQN" "=Q" "=RC" "=RI" "=RM" "=TR" "=V" "=VM" "=VMQ" "=VP" "=VPM" "=VPMQ" "=Y" "=YM" "=YMQ" "ABS" "AND" "BITS" "BUSYQ" "C" "CAB" "CITOQ" "CMTOQ" "CONT" "CRQ" "CTOQ" "DC" "DIVI" "DUMMY" "DUP" "DUPD" "E" "EM" "EMQ" "ERASE" "EXIT" "FINISH" "FRB" "I" "IMTOQ" "INTQ" "ITOQ" "J" "J#" "J#Z" "J=" "J=Z" "JCNZ" "JCNZS" "JCZ" "JEJ" "JEN" "JGEZ" "JGTZ" "JLEZ" "JLTZ" "JNEJ" "JNEN" "JNTR" "JNV" "JP" "JP#" "JP#Z" "JP=" "JP=Z" "JPCNZ" "JPCZ" "JPEJ" "JPEN" "JPGEZ" "JPGTZ" "JPLEZ" "JPLTZ" "JPNEJ" "JPNEN" "JPNTR" "JPNV" "JPTR" "JPV" "JS" "JSP" "JTR" "JV" "LINK" "LPEQ" "LPQ" "M" "M+I" "M-I" "MBRQ" "MBSKQ" "MBTQ" "MFRQ" "MFSKQ" "MLBQ" "MLWQ" "MM" "MMH" "MMHN" "MMN" "MMQ" "MMQH" "MMQHN" "MMQN" "MRWDQ" "MTOQ" "MWQ" "NC" "NEG" "NEGD" "NEV" "NOT" "OR" "OUT" "P" "PARQ" "PERM" "PREQ" "PROGRAM" "PROGRAMV" "PRQ" "PV" "PWEQ" "PWQ" "Q" "QTOQ" "REV" "REVD" "SET" "SET+" "SET-" "SETAV" "SETAVP" "SETAY" "SETB" "SHA" "SHA+" "SHA-" "SHAC" "SHAD" "SHAD+" "SHAD-" "SHADC" "SHC" "SHC+" "SHC-" "SHCC" "SHL" "SHL+" "SHL-" "SHLC" "SHLD" "SHLD+" "SHLD-" "SHLDC" "STR" "TLOQ" "TOB" "V" "VM" "VMQ" "VP" "VPM" "VPMQ" "VR" "XD" "Y" "YM" "YMQ" "ZERO")
  "The letters and signs of statements.")

(provide 'kdf9-tables)
;;; kdf9-tables.el ends here
