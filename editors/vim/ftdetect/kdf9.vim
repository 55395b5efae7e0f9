" A job begins with its header; another file that is called so is none of ours.
au BufNewFile,BufRead *.usercode,*.deck setf usercode
au BufNewFile,BufRead *.job if getline(1) =~# '^KDF9 JOB' || line('$') == 1 && getline(1) ==# '' | set ft=kdf9job | endif
