" Instruction List (IEC 61131-3:2003) as Narbeddo takes it. Made by tools/editors from the words of crates/wc_built_in.
if exists("current_compiler")
  finish
endif
let current_compiler = "narbeddo"
CompilerSet makeprg=narbeddo\ check\ --message\ short\ %:S
" A column counts characters. %c counts bytes: after a character above ASCII on its line, the cursor is some bytes before the place.
CompilerSet errorformat=%f:%l:%c:\ %trror[%n]:\ %m,%f:%l:%c:\ %tarning[W%n]:\ %m,%f:%l:\ %trror[%n]:\ %m,%f:\ %trror[%n]:\ %m,%-G%.%#
