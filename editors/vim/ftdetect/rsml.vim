autocmd BufRead,BufNewFile *.rsml setfiletype rsml
