" Typed assembly language, the texts that talc writes and reads.
if exists("b:current_syntax")
  finish
endif

syntax case match
syntax keyword talcInstruction add sub mul bnz ld st mov malloc unpack jmp halt
syntax keyword talcKeyword tal code data pack as
syntax keyword talcType int all some
syntax match talcRegister /\<r\d\+\>/
syntax match talcLabel /\<\h\w*\ze\s*:\s*\(code\|data\)\>/
syntax match talcNumber /\<\d\+\|\~\d\+/
syntax match talcOperator /\^/
syntax match talcBracket /[][{}<>,.:]/
syntax match talcComment /--.*$/

highlight default link talcInstruction Statement
highlight default link talcKeyword Keyword
highlight default link talcType Type
highlight default link talcRegister Identifier
highlight default link talcLabel Function
highlight default link talcNumber Number
highlight default link talcOperator Operator
highlight default link talcBracket Delimiter
highlight default link talcComment Comment

let b:current_syntax = "talc_tal"
