" Vim syntax of gravitar's sources, for the processor and for the vector generator. docs/ASSEMBLER.md
if exists("b:current_syntax")
    finish
endif
syn case ignore
syn keyword gravitarInstruction adc and asl bcc bcs beq bit bmi bne bpl brk bvc bvs clc cld cli clv cmp cpx
syn keyword gravitarInstruction cpy dec dex dey eor inc inx iny jmp jsr lda ldx ldy lsr nop ora pha php pla
syn keyword gravitarInstruction plp rol ror rti rts sbc sec sed sei sta stx sty tax tay tsx txa txs tya
syn keyword gravitarInstruction vctr svec stat scal cntr halt jsrl rtsl jmpl
syn keyword gravitarRegister a x y
syn match gravitarDirective "\.\(org\|byte\|word\)\>"
syn match gravitarLabel "^\s*\h\w*\ze\s*:"
syn match gravitarName "^\s*\h\w*\ze\s*="
syn match gravitarNumber "\$\x\+\>\|%[01]\+\>\|\<\d\+\>"
syn match gravitarComment ";.*" contains=@Spell
hi def link gravitarInstruction Statement
hi def link gravitarRegister Type
hi def link gravitarDirective PreProc
hi def link gravitarLabel Label
hi def link gravitarName Identifier
hi def link gravitarNumber Number
hi def link gravitarComment Comment
let b:current_syntax = "gravitar"
