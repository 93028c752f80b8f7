" A program that `ets lower` reads: a file *.df.
autocmd BufNewFile,BufRead *.df setfiletype etsprogram
