autocmd BufNewFile,BufRead *.trac setfiletype trac
