" Instruction List (IEC 61131-3:2003) as Narbeddo takes it. Made by tools/editors from the words of crates/wc_built_in.
autocmd BufRead,BufNewFile *.il set filetype=narbeddo
