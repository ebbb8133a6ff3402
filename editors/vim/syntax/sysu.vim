" Vim syntax file for sysu's schema files and scripts (docs/GRAMMAR.md)
if exists("b:current_syntax")
  finish
endif

syntax case match
syntax keyword sysuDefinition attribute relation object from fd maximal
syntax keyword sysuKind int text
syntax keyword sysuStatement insert delete where load print schema closure retrieve explain compare with window
syntax keyword sysuOperator and or not
syntax match sysuSign "->\|!=\|<=\|>=\|[=<>]"
syntax match sysuNumber "\%([A-Za-z0-9_]\)\@1<!-\?\d\+\%([A-Za-z0-9_]\)\@!"
" a text goes to the next quote, over line ends; two quotes are one
syntax region sysuText start="'" end="'" contains=sysuQuote
syntax match sysuQuote "''" contained
syntax match sysuComment "--.*$" contains=sysuTodo
syntax keyword sysuTodo contained TODO FIXME
syntax match sysuVariable "\<[A-Za-z_][A-Za-z0-9_]*\ze\."

highlight default link sysuDefinition Keyword
highlight default link sysuKind Type
highlight default link sysuStatement Statement
highlight default link sysuOperator Operator
highlight default link sysuSign Operator
highlight default link sysuNumber Number
highlight default link sysuText String
highlight default link sysuQuote SpecialChar
highlight default link sysuComment Comment
highlight default link sysuTodo Todo
highlight default link sysuVariable Identifier

let b:current_syntax = "sysu"
