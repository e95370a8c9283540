" Snowball scripts, as Voltizug takes them. The words are those of docs/LANGUAGE.md.
if exists('b:current_syntax') | finish | endif
syntax case match
syntax iskeyword @,48-57,_
syntax keyword snowballKind strings integers booleans routines externals groupings
syntax keyword snowballItem define as backwardmode stringescapes stringdef hex decimal
syntax keyword snowballControl and or not test try do fail repeat loop atleast goto gopast backwards setlimit for among substring
syntax keyword snowballCommand next hop tolimit atlimit setmark atmark tomark set unset delete insert attach non
syntax keyword snowballValue true false cursor limit len lenof maxint minint
syntax keyword snowballLeftOut get reverse size sizeof
syntax match snowballNumber /\<\d\+\>/
syntax match snowballSign /<-\|<+\|->\|[=!<>+*\/-]=\|[$+*=<>\[\]]\|\/\(\/\|\*\)\@!\|-/
syntax match snowballName /\(\<define\_s\+\)\@<=\h\w*/
" A quote in an insertion ends no literal. Scripts with other insert characters than { } are coloured as if they had these.
syntax match snowballInsertion /{[^}']*}\|{'}/ contained
syntax match snowballLiteral /'\%({[^}]*}\|[^'{]\)*'/ contains=snowballInsertion
" The name of a macro may have quotes in it.
syntax match snowballMacro /\(\<stringdef\s\+\)\@<=\S\+/
syntax match snowballComment /\/\/.*/ contains=snowballTodo,@Spell
syntax region snowballComment start=/\/\*/ end=/\*\// contains=snowballTodo,@Spell
syntax keyword snowballTodo contained TODO FIXME XXX
syntax sync fromstart
highlight default link snowballKind Type
highlight default link snowballItem Define
highlight default link snowballControl Statement
highlight default link snowballCommand Function
highlight default link snowballValue Constant
highlight default link snowballLeftOut Error
highlight default link snowballNumber Number
highlight default link snowballSign Operator
highlight default link snowballName Identifier
highlight default link snowballMacro Macro
highlight default link snowballInsertion SpecialChar
highlight default link snowballLiteral String
highlight default link snowballComment Comment
highlight default link snowballTodo Todo
let b:current_syntax = 'snowball'
