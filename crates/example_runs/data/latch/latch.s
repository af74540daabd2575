; The smallest program: it writes a byte to the output latch, and waits.

lamp    = $8800                 ; the output latch

        .org $9000
start:  lda #5
        sta lamp
wait:   jmp wait

        .org $FFFC              ; the reset's vector
        .word start

; vim: ft=gravitar
