" Instruction List (IEC 61131-3:2003) as Narbeddo takes it. Made by tools/editors from the words of crates/wc_built_in.
setlocal comments=s:(*,e:*) commentstring=(*\ %s\ *)
compiler narbeddo
