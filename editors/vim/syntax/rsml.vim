" Highlighting of RSML requirements.
if exists("b:current_syntax")
  finish
endif

syntax keyword rsmlDeclaration array bus constant enumeration event function input macro range receive send specification state
syntax keyword rsmlStatement all default move of on one quiet raise stay when
syntax keyword rsmlOperatorWord always every in previous some this
syntax keyword rsmlCell T F
syntax match rsmlNumber "\<[0-9]\+\>"
syntax match rsmlOperator "->\|\.\.\|!=\|<=\|>=\|[-+=<>|]"
syntax match rsmlComment "#.*$" contains=@Spell

highlight default link rsmlDeclaration Keyword
highlight default link rsmlStatement Statement
highlight default link rsmlOperatorWord Operator
highlight default link rsmlCell Boolean
highlight default link rsmlNumber Number
highlight default link rsmlOperator Operator
highlight default link rsmlComment Comment

let b:current_syntax = "rsml"
