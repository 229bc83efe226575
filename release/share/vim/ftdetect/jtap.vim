autocmd BufNewFile,BufRead *.jtap setfiletype jtap
