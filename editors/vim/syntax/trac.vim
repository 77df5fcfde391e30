" TRAC T-64: calls, function names, protected text, and what an apostrophe cuts off.
if exists('b:current_syntax')
  finish
endif

" An apostrophe ends a string, also inside parentheses: there each colour ends too.
syntax region tracProtected matchgroup=tracParenthesis start=/(/ end=/)/ end=/\ze'/ contains=@tracParts
syntax region tracActive matchgroup=tracActiveMark start=/#(/ end=/)/ end=/\ze'/ contains=@tracParts
syntax region tracNeutral matchgroup=tracNeutralMark start=/##(/ end=/)/ end=/\ze'/ contains=@tracParts
let s:names = 'rs|rc|cm|ps|hl|ds|ss|dd|da|ln|pf|cl|cs|cc|cn|in|cr|eq|gr|ad|su|ml|dv|bu|bi|bc|bs|br'
execute 'syntax match tracFunction /\v\c(#\()@2<=(' . s:names . ')\ze[,)]/ contained'
syntax match tracComma /,/ contained
syntax match tracMeta /'/
syntax match tracStray /)/
syntax cluster tracParts contains=tracProtected,tracActive,tracNeutral,tracFunction,tracComma

highlight default link tracActiveMark Statement
highlight default link tracNeutralMark Type
highlight default link tracFunction Function
highlight default link tracComma Delimiter
highlight default link tracParenthesis Delimiter
highlight default link tracProtected String
highlight default link tracMeta Special
highlight default link tracStray Error

" What a colour depends on may begin many lines above.
syntax sync minlines=200
let b:current_syntax = 'trac'
