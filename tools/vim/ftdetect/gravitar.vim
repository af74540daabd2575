" Tapes by their name. Sources name their type in a modeline, since .s and .v belong to others too.
autocmd BufNewFile,BufRead *.tape set filetype=gravitar_tape
