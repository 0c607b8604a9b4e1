autocmd BufNewFile,BufRead *.qsg setfiletype qsg
