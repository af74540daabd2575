; Seven: a digit runs from 0 to 9, and a press of the button while it is 7 scores. A miss begins again at 0.
; IN3 bit 1 is the button, 0 while it is down. The pictures are ../font/font.v and then pictures.v.

in3     = $8000
draw    = $8840                 ; a write starts the vector generator
ack     = $88C0                 ; a write acknowledges the interrupt
dog     = $8980                 ; a write clears the watchdog
audf1   = $6000
audc1   = $6001
skctl1  = $600F
list    = $2000                 ; the generator's list, in the vector RAM

irqs    = $10                   ; interrupts up to the next picture
digit   = $11
hold    = $12                   ; pictures up to the next digit
score   = $13
was     = $14                   ; the button, as it was
level   = $15                   ; of the tone

        .org $9000
start:  ldx #0
fill:   lda words,x
        sta list,x
        inx
        cpx #last - words
        bne fill
        lda #3
        sta skctl1              ; the POKEY runs
        lda #1
        sta irqs
        sta hold
        lda #2
        sta was
        cli
wait:   jmp wait                ; all else is done by the interrupt

irq:    sta ack
        sta dog
        dec irqs
        bne back
        lda #4                  ; a picture at each fourth interrupt, 61 a second
        sta irqs
        jsr run
        jsr button
        jsr sound
        lda digit               ; sign n of the font is A400 + 16 * n: the low byte is 16 * n
        ldx #shown - words
        jsr show
        lda score
        ldx #points - words
        jsr show
        sta draw
back:   rti

run:    dec hold
        bne runs
        lda #12
        sta hold
        inc digit
        lda digit
        cmp #10
        bne runs
        lda #0
        sta digit
runs:   rts

button: lda in3
        and #2
        cmp was
        beq runs
        sta was
        cmp #2
        beq runs                ; it came up
        lda #15
        sta level
        ldx #200                ; a low tone, and no points
        ldy #0
        lda digit
        cmp #7
        bne judged
        ldx #60                 ; a high one, and a point, up to 9
        ldy score
        cpy #9
        beq judged
        iny
judged: sty score
        stx audf1
        rts

sound:  lda level               ; the tone fades
        beq mute
        dec level
        ora #$A0
mute:   sta audc1
        rts

show:   asl a
        asl a
        asl a
        asl a
        sta list,x
        rts

words:  .word $A780             ; jsrl $2F00, the text
        .word $8000             ; cntr
        .word $7000             ; scal 0, 0
        .word $60F6             ; stat 6, 15
        .word $1FF6, $1FFA      ; vctr -6, -10, 0
shown:  .word $A400             ; jsrl $2800, a digit
        .word $60F2             ; stat 2, 15
        .word $1F88, $1FEE      ; vctr -18, -120, 0
points: .word $A400
        .word $2000             ; halt
last:

        .org $FFFC
        .word start             ; the vector of a reset
        .word irq               ; and that of an interrupt

; vim: ft=gravitar
