; A board with the timers' interrupts: each one counts in the last byte of the vector RAM, which is the last byte
; of a board, and shows in the output latch which channel asked.

        .org $9000
start:  ldx #$FF
        txs
        lda #3
        sta $600F               ; the POKEY leaves its reset
        lda #$A4                ; a pure tone at level 4
        sta $6001
        lda #$40
        sta $6000
        lda #1                  ; channel 1 may ask
        sta $600E
        sta $6009
        cli
wait:   sta $8980               ; the watchdog
        jmp wait

irq:    lda $600E
        sta $8800
        lda #0                  ; takes the request back
        sta $600E
        lda #1
        sta $600E
        sta $88C0               ; and that of the divider
        inc $27FF
        rti

        .org $FFFA
        .word start, start, irq

; vim: ft=gravitar
