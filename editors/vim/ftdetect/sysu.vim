autocmd BufNewFile,BufRead *.su setfiletype sysu
