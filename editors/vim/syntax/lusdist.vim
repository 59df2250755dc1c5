" Lustre programs, as lusdist reads them: colours.
if exists('b:current_syntax')
  finish
endif

syntax case match
syntax sync minlines=200

syntax keyword lusdistStructure node returns var let tel type enum
syntax keyword lusdistConditional if then else
syntax keyword lusdistClock when merge current
syntax keyword lusdistMemory pre fby
syntax keyword lusdistOperator and or xor not div mod
syntax keyword lusdistType int bool
syntax keyword lusdistTruth true false

syntax match lusdistNumber /\<\d\+\>/
syntax match lusdistSign /->\|=>\|<>\|<=\|>=\|[-+*=<>]/
syntax match lusdistCall /\<\h\w*\>\ze\_s*(/ contains=lusdistStructure,lusdistConditional,lusdistClock,lusdistMemory,lusdistOperator,lusdistType,lusdistTruth
syntax match lusdistNodeName /\(\<node\_s\+\)\@<=\h\w*/
syntax match lusdistComment /--.*$/ contains=lusdistTodo
syntax keyword lusdistTodo TODO FIXME contained

highlight default link lusdistStructure Structure
highlight default link lusdistConditional Conditional
highlight default link lusdistClock Statement
highlight default link lusdistMemory PreProc
highlight default link lusdistOperator Operator
highlight default link lusdistType Type
highlight default link lusdistTruth Boolean
highlight default link lusdistNumber Number
highlight default link lusdistSign Operator
highlight default link lusdistCall Function
highlight default link lusdistNodeName Function
highlight default link lusdistComment Comment
highlight default link lusdistTodo Todo

let b:current_syntax = 'lusdist'
