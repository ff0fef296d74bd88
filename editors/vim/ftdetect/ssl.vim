autocmd BufRead,BufNewFile *.ssl setfiletype ssl
