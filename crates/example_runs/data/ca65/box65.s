; The box of box.s and box.v, for ca65 and ld65: the same image. Names reach from the program to the pictures here,
; so the list has `jsrl box` where box.s has a number.
;   ca65 -g -o box.o box65.s && ld65 -C gravitar.cfg -Ln box.labels -o box.img box.o

        .include "board.inc"
        .include "avg.inc"

audf1   = pokey1 + audf
audc1   = pokey1 + audc

        .segment "ZEROPAGE" : zeropage
        .res 16                 ; box.s begins at 0010
left:   .res 1                  ; interrupts up to the next picture
place:  .res 1                  ; of the box, -128 to 127

        .segment "CODE"
start:  ldx #words_end - words - 1
fill:   lda words,x
        sta list,x
        dex
        bpl fill
        lda #3
        sta pokey1 + skctl
        lda #1
        sta left
        cli
wait:   jmp wait                ; all else is done by the interrupt

irq:    sta ack
        sta dog
        dec left
        bne back
        lda #4
        sta left
        ldy #$A0                ; silence
        lda in3
        and #%1000
        bne right
        dec place
        ldy #$A8                ; a pure tone at level 8
right:  lda in3
        and #%0100
        bne still
        inc place
        ldy #$A8
still:  sty audc1
        lda place
        sta audf1
        asl                     ; twice as far, since the field is wider than a byte
        sta list + (moved - words) + 2
        lda #0
        bcc store
        lda #$1F                ; the sign, in bits 8 to 12
store:  sta list + (moved - words) + 3
        sta draw
back:   rti

words:  cntr
        scal 1, 0
moved:  vctr 0, 0, 0            ; its second word has dx
        jsrl box
        halt
words_end:

        .segment "PICTURES"
box:    stat 3, 12
        vctr -40, 0, 1
        vctr 0, 80, 1
        vctr 80, 0, 1
        vctr 0, -80, 1
        vctr -40, 0, 1
        cntr
        stat 2, 9
        vctr -300, -4, 0
        vctr 600, 0, 1
        jmpl line
        halt
line:   svec 0, -20, 7
        rtsl

        .segment "VECTORS"
        .word start, start, irq

; vim: ft=gravitar
