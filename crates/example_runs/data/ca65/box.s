; A box that two buttons move, with a beep while it moves: for `gravitar asm`, with box.v. box65.s has the same
; for ca65, and gives the same image.

in3     = $8000                 ; bit 3 left, bit 2 right: 0 while a button is down
draw    = $8840                 ; a write starts the vector generator
ack     = $88C0                 ; a write acknowledges the interrupt
dog     = $8980                 ; a write clears the watchdog
audf1   = $6000
audc1   = $6001
skctl1  = $600F
list    = $2000                 ; the generator's list, in the vector RAM

left    = $10                   ; interrupts up to the next picture
place   = $11                   ; of the box, -128 to 127

        .org $9000
start:  ldx #11
fill:   lda words,x
        sta list,x
        dex
        bpl fill
        lda #3
        sta skctl1
        lda #1
        sta left
        cli
wait:   jmp wait                ; all else is done by the interrupt

irq:    sta ack
        sta dog
        dec left
        bne back
        lda #4
        sta left
        ldy #$A0                ; silence
        lda in3
        and #8
        bne right
        dec place
        ldy #$A8                ; a pure tone at level 8
right:  lda in3
        and #4
        bne still
        inc place
        ldy #$A8
still:  sty audc1
        lda place
        sta audf1
        asl a                   ; twice as far, since the field is wider than a byte
        sta list+6
        lda #0
        bcc store
        lda #$1F                ; the sign, in bits 8 to 12
store:  sta list+7
        sta draw
back:   rti

words:  .word $8000             ; cntr
        .word $7100             ; scal 1, 0
        .word 0, 0              ; vctr 0, 0, 0: the second word has dx
        .word $A400             ; jsrl $2800, the box
        .word $2000             ; halt

        .org $FFFA
        .word start, start, irq

; vim: ft=gravitar
