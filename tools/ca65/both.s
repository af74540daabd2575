; A processor source that both assemblers take, gravitar asm and ca65: each of the 151 opcodes, and most forms
; that docs/ASSEMBLER.md has as the same in both. `both.sh` beside it compares their bytes.

zero    = $10                   ; known before it is used: the zero page
wide    = $1234
small   = wide - $1200          ; a sum, from an earlier name
Case    = 5                     ; another name than `case`
case    = %00000110

        .org $9000
start:  adc #Case               ; immediate, zero page, absolute
        adc zero
        adc zero,x
        adc wide
        adc wide,x
        adc wide,y
        adc (zero,x)
        adc (zero),y
        and #case
        and zero
        and zero,x
        and wide
        and wide,x
        and wide,y
        and (zero,x)
        and (zero),y
        cmp #255
        cmp zero
        cmp zero,x
        cmp wide
        cmp wide,x
        cmp wide,y
        cmp (zero,x)
        cmp (zero),y
        EOR #$fF                ; words and digits in either case
        EOR zero
        Eor zero,X
        eor wide
        eor wide,x
        eor wide,Y
        eor (zero,x)
        eor (zero),y
        lda #<wide              ; the low and the high byte of one term
        lda zero
        lda zero,x
        lda wide
        lda wide,x
        lda wide,y
        lda (zero,x)
        lda (zero),y
        ora #>wide
        ora zero
        ora zero,x
        ora wide
        ora wide,x
        ora wide,y
        ora (zero,x)
        ora (zero),y
        sbc #0
        sbc zero
        sbc zero,x
        sbc wide
        sbc wide,x
        sbc wide,y
        sbc (zero,x)
        sbc (zero),y
        sta zero
        sta zero,x
        sta wide
        sta wide,x
        sta wide,y
        sta (zero,x)
        sta (zero),y

near:   bcc near                ; back, and on to a later name
        bcs near
        beq near
        bmi far
        bne far
        bpl far
        bvc near+1
        bvs near-1

        ldx #1
        ldx zero
        ldx zero,y
        ldx wide
        ldx wide,y
        ldy #2
        ldy zero
        ldy zero,x
        ldy wide
        ldy wide,x
        stx zero
        stx zero,y
        stx wide
        sty zero
        sty zero,x
        sty wide
        cpx #3
        cpx zero
        cpx wide
        cpy #4
        cpy zero
        cpy wide
        bit zero
        bit wide
far:    inc zero
        inc zero,x
        inc wide
        inc wide,x
        dec zero
        dec zero,x
        dec wide
        dec wide,x
        asl a
        asl zero
        asl zero,x
        asl wide
        asl wide,x
        lsr A
        lsr zero
        lsr zero,x
        lsr wide
        lsr wide,x
        rol a
        rol zero
        rol zero,x
        rol wide
        rol wide,x
        ror a
        ror zero
        ror zero,x
        ror wide
        ror wide,x
        jmp wide
        jmp (wide)
        jsr wide
        brk
        clc
        cld
        cli
        clv
        dex
        dey
        inx
        iny
        nop
        pha
        php
        pla
        plp
        rti
        rts
        sec
        sed
        sei
        tax
        tay
        tsx
        txa
        txs
        tya

; The zero page where the value is known by then and fits, else absolute where the instruction has it.
        lda later               ; not known yet: absolute, and ca65 warns of it
        stx later,y             ; these two have the zero page alone
        sty later,x
        lda 5,y                 ; absolute, since LDA has no zero page with Y
        ldx small               ; 0034
        lda 255
        lda 256
        jmp last
later   = $20

; A label may stand alone, or on the line of an `.org`, where it names the address before it.
alone:
        jmp alone
here:   .org $A000
        jmp here
  spaced :   lda # 5            ; blanks between the parts
        sta ( zero ) , y

        .byte 0, 1, $7F, %10000000, 255, <wide, >wide, Case - case + 2
        .BYTE zero
        .word 0, 65535, start, last - start, wide + 1
last:   rts
        .org $FFFA              ; ld65 puts these behind the others; the image has them at FFFA
        .word start, start, last

; vim: ft=gravitar
