" guarded KAT (.gkat). Made by editors/generate.py.
if exists("b:current_syntax")
  finish
endif
syntax case match
syntax match gkatNumber /\<\d\+\>/
syntax match gkatOperator /&&\|||\|!\|+\|\.\|\^/
syntax keyword gkatDeclaration test action
syntax keyword gkatQuestion equal
syntax keyword gkatConstant true false
syntax match gkatComment /#.*/ contains=@Spell
highlight default link gkatNumber Number
highlight default link gkatOperator Operator
highlight default link gkatDefined Identifier
highlight default link gkatComment Comment
highlight default link gkatDeclaration Keyword
highlight default link gkatQuestion Keyword
highlight default link gkatConstant Boolean
let b:current_syntax = "gkat"
