" Vim syntax: array programs (docs/LANGUAGE.md).
if exists('b:current_syntax')
  finish
endif
syntax case match
syntax keyword veniceStatement input let output
syntax keyword veniceType u8 i8 u16 i16 u32 i32
syntax keyword veniceFunction abs rowsum rowmin rowmax sum minval maxval min max select
syntax keyword veniceFunction shift rotate section stretch transpose sadd ssub
syntax match veniceOperator "[-+*&|^~<>=]\|<<\|>>\|[=!<>]="
syntax match veniceNumber "\<\d\+\>\|\<0x\x\+\>"
syntax match veniceFilter "@\h\w*"
syntax match veniceFault "[/%?.\"'{}$\\]\|[^\x00-\x7f]\|!=\@!"
syntax match veniceComment "#.*$" contains=veniceTodo
syntax keyword veniceTodo TODO contained
highlight default link veniceStatement Statement
highlight default link veniceType Type
highlight default link veniceFunction Function
highlight default link veniceOperator Operator
highlight default link veniceNumber Number
highlight default link veniceFilter PreProc
highlight default link veniceFault Error
highlight default link veniceComment Comment
highlight default link veniceTodo Todo
let b:current_syntax = 'venice'
