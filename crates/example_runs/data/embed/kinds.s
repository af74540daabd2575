; A board with records of each kind: strokes, levels of both POKEYs, the latch, and watchdog resets.

        .org $9000
start:  lda #3
        sta $600F               ; the POKEYs leave their reset
        sta $680F
        lda #$A6                ; a pure tone at level 6
        sta $6001
        sta $6801
        sta $8800               ; the output latch
        sta $8840               ; starts the vector generator
wait:   jmp wait                ; nothing clears the watchdog

        .org $FFFC
        .word start

; vim: ft=gravitar
