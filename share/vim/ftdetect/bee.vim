autocmd BufNewFile,BufRead *.bee setfiletype bee
