" Blocks as text, which the program foldheron builds. Vim takes such files for the whole language Esterel, of which this is the kernel.
autocmd BufRead,BufNewFile *.strl set filetype=strl
