" The source language of talc: System F with let, packages and references.
if exists("b:current_syntax")
  finish
endif

syntax case match
syntax keyword talcKeyword fix gen let in pack open as ref if0
syntax keyword talcType int all some
syntax match talcNumber /\<\d\+\|\~\d\+/
syntax match talcOperator /->\|:=\|[-+*#=!]/
syntax match talcBracket /[][()<>,.:]/
syntax match talcComment /--.*$/

highlight default link talcKeyword Keyword
highlight default link talcType Type
highlight default link talcNumber Number
highlight default link talcOperator Operator
highlight default link talcBracket Delimiter
highlight default link talcComment Comment

let b:current_syntax = "talc_source"
