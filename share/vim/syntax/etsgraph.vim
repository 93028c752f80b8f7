" Vim syntax file
" Language: the text of a dataflow graph, as `ets` reads it, and the inputs after it
" A line that has no form of docs/FORMATS.md is shown as an error, and so is a space too many.

if exists("b:current_syntax")
  finish
endif

syn case match

" Of the items that match a line the last one in this file is taken.
syn match etsgraphError "^.\+$"
syn match etsgraphInput "^\%(0\|-\=[1-9]\d*\)$"
syn match etsgraphLine "^etsgraph [12]$" contains=etsgraphWord
syn match etsgraphLine "^array \a\w\{0,31} [1-9]\d*$" contains=etsgraphWord
syn match etsgraphLine "^block \a\w\{0,31} \d\+ \d\+$" contains=etsgraphWord
syn match etsgraphLine "^out\%( \d\+\.\d\+\)*$" contains=etsgraphWord
syn match etsgraphLine "^end$" contains=etsgraphWord
syn match etsgraphLine "^main \a\w\{0,31}$" contains=etsgraphWord
syn match etsgraphLine "^\%(-\|\d\+[+-]\) lit -\=\d\+ \d\+\.\d\+$" contains=etsgraphRegion
syn match etsgraphLine "^\%(-\|\d\+[+-]\) \%(neg\|not\|cond\|enter\) \d\+\.\d\+$" contains=etsgraphRegion
syn match etsgraphLine "^\%(-\|\d\+[+-]\) \%(add\|sub\|mul\|div\|rem\|and\|or\|xor\|shl\|shr\|eq\|ne\|lt\|le\) \d\+\.\d\+ \d\+\.\d\+$" contains=etsgraphRegion
syn match etsgraphLine "^\%(-\|\d\+[+-]\) merge \d\+ \d\+\.\d\+ \d\+\.\d\+$" contains=etsgraphRegion
syn match etsgraphLine "^\%(-\|\d\+[+-]\) fetch \a\w\{0,31} \d\+\.\d\+$" contains=etsgraphRegion
syn match etsgraphLine "^\%(-\|\d\+[+-]\) store \a\w\{0,31} \d\+\.\d\+ \d\+\.\d\+$" contains=etsgraphRegion
syn match etsgraphLine "^\%(-\|\d\+[+-]\) s\=call \a\w\{0,31}\%( \d\+\.\d\+\)*$" contains=etsgraphRegion
syn match etsgraphLine "^\%(-\|\d\+[+-]\) loop \a\w\{0,31} \d\+\%( \d\+\.\d\+\)*$" contains=etsgraphRegion

" A node's line: its region, its kind, then its names, numbers and sources.
syn match etsgraphRegion "^\%(-\|\d\+[+-]\) " contained nextgroup=etsgraphOperator,etsgraphKind,etsgraphNamed
syn match etsgraphOperator "\<\%(neg\|not\|add\|sub\|mul\|div\|rem\|and\|or\|xor\|shl\|shr\|eq\|ne\|lt\|le\)\>" contained nextgroup=etsgraphSource skipwhite
syn match etsgraphKind "\<\%(lit\|cond\|enter\|merge\)\>" contained nextgroup=etsgraphSource,etsgraphNumber skipwhite
syn match etsgraphNamed "\<\%(fetch\|store\|s\=call\|loop\)\>" contained nextgroup=etsgraphName skipwhite

" The first word of any other line.
syn match etsgraphWord "^\%(etsgraph\|array\|block\|out\|end\|main\)\>" contained nextgroup=etsgraphName,etsgraphNumber,etsgraphSource skipwhite

syn match etsgraphName "\<\a\w*\>" contained nextgroup=etsgraphSource,etsgraphNumber skipwhite
syn match etsgraphNumber "-\=\<\d\+\>" contained nextgroup=etsgraphSource,etsgraphNumber skipwhite
syn match etsgraphSource "\<\d\+\.\d\+\>" contained nextgroup=etsgraphSource skipwhite

hi def link etsgraphError Error
hi def link etsgraphInput Number
hi def link etsgraphRegion Label
hi def link etsgraphOperator Operator
hi def link etsgraphKind Statement
hi def link etsgraphNamed Statement
hi def link etsgraphWord Keyword
hi def link etsgraphName Identifier
hi def link etsgraphNumber Number
hi def link etsgraphSource Special

let b:current_syntax = "etsgraph"
