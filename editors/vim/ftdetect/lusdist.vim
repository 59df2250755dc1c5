autocmd BufRead,BufNewFile *.lus setfiletype lusdist
