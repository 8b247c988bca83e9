autocmd BufNewFile,BufRead *.tdcc setfiletype tdcc
