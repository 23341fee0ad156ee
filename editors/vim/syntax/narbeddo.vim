" Instruction List (IEC 61131-3:2003) as Narbeddo takes it. Made by tools/editors from the words of crates/wc_built_in.
if exists("b:current_syntax")
  finish
endif
syntax case ignore
syntax sync fromstart

" of matches that begin at the same place, the last one defined is taken
syntax match narbeddoIllegal /\S/
syntax match narbeddoName /\h\w*/
syntax match narbeddoIllegal /\h\w\{32,}\|\h\w*__\w*\|\h\w*_\>/
syntax match narbeddoSign /:=\|=>\|[(),:;]/
syntax match narbeddoDot /\./ nextgroup=narbeddoField skipwhite
syntax match narbeddoField /\h\w*/ contained
syntax match narbeddoOperator /\<\%(ANDN\|XORN\|ADD\|AND\|DIV\|LDN\|MOD\|MUL\|NOT\|ORN\|STN\|SUB\|XOR\|EQ\|GE\|GT\|LD\|LE\|LT\|NE\|OR\|ST\|R\|S\)\>/
syntax match narbeddoOperator /&\%(N\w\@!\)\=/
syntax match narbeddoJump /\<\%(JMPCN\|JMPC\|JMP\)\>/ nextgroup=narbeddoTarget skipwhite
syntax match narbeddoTarget /\h\w*/ contained
syntax match narbeddoCall /\<\%(CALCN\|CALC\|CAL\)\>/ nextgroup=narbeddoInstance skipwhite
syntax match narbeddoInstance /\h\w*/ contained nextgroup=narbeddoList skipwhite
syntax match narbeddoFlow /\<\%(RETCN\|RETC\|RET\)\>/
syntax match narbeddoUnit /\<\%(FUNCTION_BLOCK\|PROGRAM\)\>/ nextgroup=narbeddoUnitName skipwhite
syntax match narbeddoUnitName /\h\w*/ contained
syntax match narbeddoKeyword /\<\%(END_FUNCTION_BLOCK\|END_PROGRAM\|END_VAR\)\>/
syntax match narbeddoType /\<\%(BOOL\|DINT\|TIME\)\>/
syntax match narbeddoBlock /\<\%(R_TRIG\|CTU\|TOF\|TON\|RS\|SR\|TP\)\>/
syntax match narbeddoTruth /\<\%(FALSE\|TRUE\)\>/
syntax match narbeddoKept /\<\%(END_FUNCTION\|VAR_EXTERNAL\|VAR_GLOBAL\|VAR_IN_OUT\|CONSTANT\|FUNCTION\|VAR_TEMP\|RETAIN\|AT\)\>/
syntax match narbeddoArgument /\h\w*\ze\s*\%(:=\|=>\)/
syntax match narbeddoLabel /\h\w*\ze\s*:=\@!/
syntax match narbeddoIllegal /[-+]\=\d[[:alnum:]_#.]*/
syntax match narbeddoNumber /\v[-+]?\d+%(_\d+)*[[:alnum:]_#.]@!/
syntax match narbeddoNumber /\v%(2#[01]+%(_[01]+)*|8#[0-7]+%(_[0-7]+)*|16#[0-9A-F]+%(_[0-9A-F]+)*)[[:alnum:]_#.]@!/
syntax match narbeddoIllegal /\h\w*#-\=[[:alnum:]_#.]*/
syntax match narbeddoNumber /\vT%(IME)?#-?\d+%(_\d+)*%(\.\d+)?%(d|h|ms|m|s)%(_?\d+%(_\d+)*%(\.\d+)?%(d|h|ms|m|s))*[[:alnum:]_#.]@!/
syntax match narbeddoTruth /\vBOOL#[01][[:alnum:]_#.]@!/
syntax match narbeddoIllegal /%[[:alnum:].]*/
syntax match narbeddoAddress /\%(%IX0\.10\|%IX0\.11\|%IX0\.12\|%IX0\.13\|%IX0\.14\|%IX0\.15\|%QX0\.10\|%QX0\.11\|%QX0\.12\|%QX0\.13\|%QX0\.14\|%QX0\.15\|%I0\.10\|%I0\.11\|%I0\.12\|%I0\.13\|%I0\.14\|%I0\.15\|%IX0\.0\|%IX0\.1\|%IX0\.2\|%IX0\.3\|%IX0\.4\|%IX0\.5\|%IX0\.6\|%IX0\.7\|%IX0\.8\|%IX0\.9\|%IX1\.0\|%IX1\.1\|%IX1\.2\|%IX1\.3\|%IX1\.4\|%IX1\.5\|%Q0\.10\|%Q0\.11\|%Q0\.12\|%Q0\.13\|%Q0\.14\|%Q0\.15\|%QX0\.0\|%QX0\.1\|%QX0\.2\|%QX0\.3\|%QX0\.4\|%QX0\.5\|%QX0\.6\|%QX0\.7\|%QX0\.8\|%QX0\.9\|%I0\.0\|%I0\.1\|%I0\.2\|%I0\.3\|%I0\.4\|%I0\.5\|%I0\.6\|%I0\.7\|%I0\.8\|%I0\.9\|%I1\.0\|%I1\.1\|%I1\.2\|%I1\.3\|%I1\.4\|%I1\.5\|%Q0\.0\|%Q0\.1\|%Q0\.2\|%Q0\.3\|%Q0\.4\|%Q0\.5\|%Q0\.6\|%Q0\.7\|%Q0\.8\|%Q0\.9\|%ID0\|%ID1\|%ID2\|%QD0\|%QD1\|%QD2\|%QD3\)[[:alnum:].]\@!/
syntax region narbeddoList matchgroup=narbeddoSign start=/(\*\@!/ end=/)/ contained contains=narbeddoComment,narbeddoName,narbeddoSign,narbeddoIllegal,narbeddoTruth,narbeddoNumber,narbeddoAddress,narbeddoDot,narbeddoArgument
syntax region narbeddoDeclarations matchgroup=narbeddoSection start=/\<\%(VAR_OUTPUT\|VAR_INPUT\|VAR\)\>\%(\s*:=\@!\)\@!/ end=/\<\%(END_VAR\)\>/ contains=narbeddoComment,narbeddoName,narbeddoSign,narbeddoIllegal,narbeddoTruth,narbeddoNumber,narbeddoAddress,narbeddoDot,narbeddoKeyword,narbeddoOperator,narbeddoFlow,narbeddoType,narbeddoBlock,narbeddoKept
syntax region narbeddoComment matchgroup=narbeddoComment start=/(\*/ end=/\*)/ contains=narbeddoNested
syntax match narbeddoNested /(\*/ contained

highlight default link narbeddoComment Comment
highlight default link narbeddoKeyword Keyword
highlight default link narbeddoOperator Operator
highlight default link narbeddoFlow Statement
highlight default link narbeddoJump Statement
highlight default link narbeddoCall Statement
highlight default link narbeddoUnit Keyword
highlight default link narbeddoSection Keyword
highlight default link narbeddoType Type
highlight default link narbeddoBlock Structure
highlight default link narbeddoTruth Boolean
highlight default link narbeddoNumber Number
highlight default link narbeddoAddress Identifier
highlight default link narbeddoLabel Label
highlight default link narbeddoTarget Label
highlight default link narbeddoUnitName Typedef
highlight default link narbeddoSign Delimiter
highlight default link narbeddoDot Delimiter
highlight default link narbeddoIllegal Error
highlight default link narbeddoKept Error
highlight default link narbeddoNested Error

let b:current_syntax = "narbeddo"
