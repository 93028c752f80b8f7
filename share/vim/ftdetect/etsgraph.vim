" The text of a dataflow graph: a file *.ets, or any other that has its first line.
autocmd BufNewFile,BufRead *.ets setfiletype etsgraph
autocmd BufRead * if getline(1) =~# '^etsgraph [12]$' | setfiletype etsgraph | endif
