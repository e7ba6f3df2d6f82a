" KAT problem (.kat). Made by editors/generate.py.
if exists("b:current_syntax")
  finish
endif
syntax case match
syntax match katNumber /\<\d\+\>/
syntax match katOperator /!=\|&&\|:=\|<=\|==\|>=\|||\|!\|\*\|+\|-\|\.\|<\|=\|>\|\^/
syntax match katDefined /\(\<prog\s\+\)\@<=\K\k*/
syntax match katDefined /\(\<term\s\+\)\@<=\K\k*/
syntax keyword katDeclaration test action var prog term hyp rounds width goal
syntax keyword katQuestion equal below triple
syntax keyword katStatement skip abort assert if else while
syntax keyword katConstant true false
syntax match katComment /#.*/ contains=@Spell
highlight default link katNumber Number
highlight default link katOperator Operator
highlight default link katDefined Identifier
highlight default link katComment Comment
highlight default link katDeclaration Keyword
highlight default link katQuestion Keyword
highlight default link katStatement Statement
highlight default link katConstant Boolean
let b:current_syntax = "kat"
