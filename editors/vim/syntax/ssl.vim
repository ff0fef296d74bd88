" Colours of SSL-P, the language in which languages are written for ssled.
if exists("b:current_syntax")
  finish
endif

syntax keyword sslDeclaration root list optional transform on
syntax match sslDeclaration /\<\%(left\|right\|nonassoc\)\>\ze\s*'/
syntax keyword sslAttribute synthesized inherited local
syntax keyword sslExpression let in with default
syntax keyword sslTruth true false
syntax keyword sslType BOOL INT STR
syntax keyword sslBuiltin STRtoINT INTtoSTR STRlen
syntax match sslNumber /\<\d\+\>/
syntax match sslReference /\$\$\|\$\d\+/
syntax match sslReference /\%([=(,:?+*/%#&|<>!-]\s\?\)\@<={\s*\h\w*\s*\.\s*\h\w*\%(\s*,\s*\h\w*\s*\.\s*\h\w*\)*\s*}/
syntax match sslSign /::=\|::\|\.\.\|[@^~]/
syntax match sslEscape contained /\\["\\n]\|%[ntb%]/
syntax region sslString start=/"/ skip=/\\./ end=/"\|$/ contains=sslEscape
syntax match sslLiteral /'[!-&(-~]\{1,64}'/
syntax region sslComment start=/\/\*/ end=/\*\//
syntax sync fromstart

highlight default link sslDeclaration Statement
highlight default link sslAttribute StorageClass
highlight default link sslExpression Conditional
highlight default link sslTruth Boolean
highlight default link sslType Type
highlight default link sslBuiltin Function
highlight default link sslNumber Number
highlight default link sslReference Identifier
highlight default link sslSign Operator
highlight default link sslEscape SpecialChar
highlight default link sslString String
highlight default link sslLiteral Character
highlight default link sslComment Comment

let b:current_syntax = "ssl"
