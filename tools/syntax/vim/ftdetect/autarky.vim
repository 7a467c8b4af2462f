autocmd BufNewFile,BufRead *.script setfiletype autarky
autocmd BufNewFile,BufRead *.report setfiletype autarky
