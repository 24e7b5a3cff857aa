" Syntax of gp's program files. Add tools/vim to 'runtimepath', as by  :set runtimepath+=~/gp/tools/vim
if exists("b:current_syntax")
  finish
endif

" What stands outside of functions, and what inside; the first word of a line says which statement it is.
syn match gpDeclaration "^\s*\zs\%(chan\|mutex\|func\)\ze\s"
syn match gpLabels "^\s*\zslabels\ze\s" nextgroup=gpSet skipwhite
syn match gpStatement "^\s*\zs\%(work\|call\|spawn\|send\|recv\|lock\|unlock\)\ze\s"
syn match gpLoop "^\s*\zsloop\ze\s"
syn match gpSet "\S\+" contained
syn match gpPair "\s\zs[^ \t=]\+=\S*" contains=gpKey
syn match gpKey "[^ \t=]\+\ze=" contained
syn match gpNumber "\s\zs\d\{1,20}\ze\%(\s\|$\)"
syn match gpFunction "\%(^\s*func\s\+\)\@<=[A-Za-z_][A-Za-z0-9_.]*"
syn match gpComment "^\s*#.*$"

hi def link gpDeclaration Keyword
hi def link gpLabels Keyword
hi def link gpStatement Statement
hi def link gpLoop Repeat
hi def link gpSet Identifier
hi def link gpPair String
hi def link gpKey Identifier
hi def link gpNumber Number
hi def link gpFunction Function
hi def link gpComment Comment

let b:current_syntax = "goroutines"
