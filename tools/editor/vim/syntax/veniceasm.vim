" Vim syntax: assembler texts (docs/MACHINE.md, "Instructions", and docs/FORMATS.md, "Assembler texts").
if exists('b:current_syntax')
  finish
endif
syntax case match
" A word may be an instruction, an operation and a parameter; the last rule that fits wins, so these are matches, no keywords.
syntax match veniceasmHeading "\<\%(version\|spad\|memory\|array\|in\|out\)\>"
syntax match veniceasmInstruction "\<\%(halt\|li\|addi\|add\|sub\|mul\|div\|bnz\|blt\|jmp\|set\|vec\|dma\)\>"
syntax match veniceasmWait "\<\%(rwait\|wwait\|vwait\|tag\|twait\)\>"
syntax match veniceasmDirection "\<\%(read\|write\)\>"
syntax match veniceasmType "\<\%(u8\|i8\|u16\|i16\|u32\|i32\)\>"
syntax match veniceasmMode "\<\%(v\|s\|vv\|vs\|sv\|ss\|acc\)\>"
syntax match veniceasmNumber "\<\d\+\>\|\<0x\x\+\>"
syntax match veniceasmRegister "\<r\%([12]\?\d\|3[01]\)\>"
syntax match veniceasmField "\%(\<set\s\+\)\@<=\%(vl\|rows\|dst\|a\|b\|dstep\|astep\|bstep\|mem\|spad\|mrows\|mbytes\|mstep\|sstep\)\>"
syntax match veniceasmOperation "\%(\<vec\s\+\)\@<=\%(mov\|cast\|add\|sub\|mul\|and\|or\|xor\|shl\|shr\|min\|max\|abs\|eq\|ne\|lt\|le\|cmov\|sadd\|ssub\)\>"
syntax match veniceasmLabel "^\s*\h\w*\s*:"
syntax match veniceasmComment "#.*$"
highlight default link veniceasmHeading PreProc
highlight default link veniceasmInstruction Statement
highlight default link veniceasmWait Exception
highlight default link veniceasmDirection Keyword
highlight default link veniceasmType Type
highlight default link veniceasmMode Special
highlight default link veniceasmNumber Number
highlight default link veniceasmRegister Identifier
highlight default link veniceasmField Constant
highlight default link veniceasmOperation Function
highlight default link veniceasmLabel Label
highlight default link veniceasmComment Comment
let b:current_syntax = 'veniceasm'
