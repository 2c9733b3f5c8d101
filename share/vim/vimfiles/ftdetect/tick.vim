" Programs over tickets.
autocmd BufNewFile,BufRead *.tick setfiletype tick
