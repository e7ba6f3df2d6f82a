" KAT flow graphs (.flow). Made by editors/generate.py.
if exists("b:current_syntax")
  finish
endif
syntax case match
syntax match katflowNumber /\<\d\+\>/
syntax match katflowOperator /!=\|&&\|:=\|<=\|==\|>=\|||\|!\|\*\|+\|-\|<\|>/
syntax match katflowDefined /\(\<graph\s\+\)\@<=\K\k*/
syntax match katflowDefined /\(\<block\s\+\)\@<=\K\k*/
syntax keyword katflowDeclaration sort fun var graph block cut rounds split match where back keeping names
syntax keyword katflowQuestion equal
syntax keyword katflowStatement goto if else return abort assert
syntax keyword katflowConstant true false
syntax keyword katflowSort u8 u16 u32 u64
syntax keyword katflowFunction s8 s16 s32 s64 slt sle sgt sge
syntax match katflowComment /#.*/ contains=@Spell
highlight default link katflowNumber Number
highlight default link katflowOperator Operator
highlight default link katflowDefined Identifier
highlight default link katflowComment Comment
highlight default link katflowDeclaration Keyword
highlight default link katflowQuestion Keyword
highlight default link katflowStatement Statement
highlight default link katflowConstant Boolean
highlight default link katflowSort Type
highlight default link katflowFunction Function
let b:current_syntax = "katflow"
