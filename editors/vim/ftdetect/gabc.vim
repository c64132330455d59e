autocmd BufNewFile,BufRead *.gabc setfiletype gabc
