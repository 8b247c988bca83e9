" Vim syntax file for program texts of tdcc, and the traces behind them.
if exists("b:current_syntax")
  finish
endif

syntax keyword tdccDeclaration signal int set new in
syntax keyword tdccConditional if then else when do watching
syntax keyword tdccTime hence next always time on
syntax keyword tdccNothing skip

syntax match tdccName /\<[A-Za-z][A-Za-z0-9_]*\>/
syntax match tdccNumber /-\=\<[0-9]\+\>/
syntax match tdccOperator /||\|&\|>=\|<=\|=\|!\|#\|\.\./
syntax match tdccPunctuation /[;,{}:]/

" From the mark on, lines are those of the trace, and have no words of the language.
syntax region tdccTrace matchgroup=tdccMark start=/^%%\r\=$/ end=/\%$/ contains=tdccTraceName,tdccNumber,tdccOperator keepend
syntax match tdccTraceName /\<[A-Za-z][A-Za-z0-9_]*\>/ contained

highlight default link tdccDeclaration Type
highlight default link tdccConditional Conditional
highlight default link tdccTime Statement
highlight default link tdccNothing Constant
highlight default link tdccName Identifier
highlight default link tdccTraceName Identifier
highlight default link tdccNumber Number
highlight default link tdccOperator Operator
highlight default link tdccPunctuation Delimiter
highlight default link tdccMark PreProc

syntax sync fromstart

let b:current_syntax = "tdcc"
