" Vim syntax file
" Language: a program of the dataflow language, as `ets lower` reads it, and the inputs after it
" What begins no token of docs/LANGUAGE.md is shown as an error, and so are a word that is reserved for later and a bad name or number.

if exists("b:current_syntax")
  finish
endif

syn case match

" Of the items that match at one place the last one in this file is taken.
syn match etsprogramError "[^ \t\r]"
syn match etsprogramSign "[()\[\]{},;]"
syn match etsprogramOperator "->\|:=\|<<\|>>\|==\|!=\|<=\|>=\|[-<>=+*/%&^|~]"
syn match etsprogramName "\<\a\w\{0,23}\>"
syn match etsprogramArray "\<\a\w\{0,23}\>\ze\_s*\["
syn match etsprogramFunction "\<\a\w\{0,23}\>\ze\_s*("
syn match etsprogramError "\<inputs\>"
syn match etsprogramDropped "\<_\>"
syn match etsprogramError "\<_\w\+\>"
syn match etsprogramError "\<\a\w\{24,}\>"
syn match etsprogramError "\<\a\w*__\w*\>"
syn match etsprogramError "\<\d\w*\>"
syn match etsprogramNumber "\<\%(0\|[1-9]\d\{0,18}\)\>"
syn keyword etsprogramWord array fn let
syn keyword etsprogramControl if else loop while strict
syn keyword etsprogramError and as break case const do end false for in match mod not or return then true type use where with xor
syn match etsprogramComment "//.*$"

" After the line `inputs` each line is an integer.
syn match etsprogramNoInput "^.\+$" contained
syn match etsprogramInput "^\%(0\|-\=[1-9]\d*\)$" contained
syn region etsprogramInputs matchgroup=etsprogramWord start="^inputs$" end="\%$" contains=etsprogramNoInput,etsprogramInput

hi def link etsprogramError Error
hi def link etsprogramSign Delimiter
hi def link etsprogramOperator Operator
hi def link etsprogramName Identifier
hi def link etsprogramArray Type
hi def link etsprogramFunction Function
hi def link etsprogramDropped Special
hi def link etsprogramNumber Number
hi def link etsprogramWord Keyword
hi def link etsprogramControl Statement
hi def link etsprogramComment Comment
hi def link etsprogramNoInput Error
hi def link etsprogramInput Number

let b:current_syntax = "etsprogram"
