" Syntax of netflow models and data (AMPL's network language).
" Use: autocmd BufRead,BufNewFile *.mod,*.dat setfiletype netflow
if exists("b:current_syntax")
    finish
endif

syntax keyword netflowDeclaration set param node arc minimize maximize nextgroup=netflowName skipwhite
syntax keyword netflowDeclaration check
syntax match netflowName "\h\w*" contained
syntax keyword netflowPhrase within dimen default symbolic integer from to obj net_in net_out
syntax keyword netflowOperator and or not in by cross diff div else if inter mod symdiff then union sum min max
syntax keyword netflowData data end tr
syntax keyword netflowMissing var subject solve display Infinity exists forall prod setof less card abs ordered printf let
syntax match netflowMark ":=\|\.\.\|<=\|>=\|<>\|[-+*=<>]"
syntax match netflowNumber "\<\d\+\(\.\d\+\)\=\([eE][+-]\=\d\+\)\=\>"
syntax region netflowText start="'" skip="''" end="'" oneline
syntax region netflowText start='"' skip='""' end='"' oneline
syntax match netflowComment "#.*$" contains=netflowTodo
syntax region netflowComment start="/\*" end="\*/" contains=netflowTodo
syntax keyword netflowTodo TODO FIXME contained

highlight default link netflowDeclaration Statement
highlight default link netflowPhrase Keyword
highlight default link netflowOperator Operator
highlight default link netflowData PreProc
highlight default link netflowMissing Error
highlight default link netflowMark Operator
highlight default link netflowNumber Number
highlight default link netflowName Identifier
highlight default link netflowText String
highlight default link netflowComment Comment
highlight default link netflowTodo Todo

let b:current_syntax = "netflow"
