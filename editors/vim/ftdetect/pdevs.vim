autocmd BufRead,BufNewFile *.pd setfiletype pdevs
