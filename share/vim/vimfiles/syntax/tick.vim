" Vim syntax file
" Language: programs over tickets

if exists("b:current_syntax")
  finish
endif

syntax case match

" Of two that begin at the same place the later one counts.
syntax match tickError "[^ \t\r]"
syntax match tickName "\h\w*"
syntax match tickSection "\%(processes\|var\|reg\|begin\|end\)\w\@!"
syntax match tickStatement "\%(put\|stamp\|clear\|out\|get\|scan\|copy\|older\|held\)\w\@!"
syntax match tickConditional "\%(if\|else\)\w\@!"
syntax match tickRepeat "while\w\@!"
syntax match tickConstant "\%(me\|n\)\w\@!"
syntax match tickNumber "\d\+"
syntax match tickOperator "[-+*/%<=]\|<=\|==\|!="
syntax match tickDelimiter "[;,(){}]"
syntax match tickComment "#.*"
syntax match tickDirective "#![^#]*"

highlight default link tickSection Structure
highlight default link tickStatement Statement
highlight default link tickConditional Conditional
highlight default link tickRepeat Repeat
highlight default link tickConstant Constant
highlight default link tickName Identifier
highlight default link tickNumber Number
highlight default link tickOperator Operator
highlight default link tickDelimiter Delimiter
highlight default link tickError Error
highlight default link tickComment Comment
highlight default link tickDirective PreProc

let b:current_syntax = "tick"
