; A non-volatile number: each press counts, and the EAROM keeps the count.

in3     = $8000                 ; bit 0 is 0 while the button is pressed
dog     = $8980                 ; a write clears the watchdog
lamp    = $8800                 ; the output latch
cell    = $8940                 ; cell 0: a write sets the EAROM's address and data
control = $8900                 ; 1 clock, 2 not-C1, 4 C2, 8 select
value   = $7000                 ; what was read
count   = $10

        .org $9000
start:  lda #0
        sta cell
        lda #9                  ; the cell is read where the clock line falls
        sta control
        lda #8
        sta control
        lda value
        cmp #$FF                ; a blank cell
        bne known
        lda #0
known:  sta count
        sta lamp

up:     sta dog                 ; waits until the button is up
        lda in3
        lsr a
        bcc up
down:   sta dog                 ; and until it is pressed
        lda in3
        lsr a
        bcs down
        inc count
        lda count
        sta lamp
        jsr keep
        jmp up

keep:   sta cell
        lda #$E                 ; erase: the cell becomes FF
        jsr pulse
        lda #$A                 ; write: it loses the bits that the data has clear
        jsr pulse
        lda #8
        sta control
        rts

pulse:  sta control             ; more than 1,512 clocks
        ldx #0
hold:   nop
        dex
        bne hold
        rts

        .org $FFFC
        .word start             ; the reset's vector

; vim: ft=gravitar
