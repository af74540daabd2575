; All that a session can change is in the log of this program: the ports and pots, the wiring of the
; timers, a cell of the EAROM, and the levels of both POKEYs.

in0     = $7800
in3     = $8000
in4     = $8800                 ; a write is recorded
cell    = $8940
control = $8900
one     = $6000                 ; POKEY 1
two     = $6800                 ; POKEY 2
count   = $10

        .org $9000
start:  lda #7                  ; the POKEYs leave their reset, and count their pots fast
        sta one + 15
        sta two + 15
        lda #$A6                ; two channels of each are heard
        sta one + 1
        lda #$A3
        sta one + 7
        lda #$AB
        sta two + 3
        lda #$A5
        sta two + 7
        lda #90
        sta two + 6
        lda #4                  ; a timer of each asks for an interrupt, where it is wired
        sta one + 14
        lda #1
        sta two + 14
        lda #200
        sta one + 6
        lda #250
        sta two
        sta one + 9
        sta two + 9
        sta cell                ; cell 0 is read
        lda #9
        sta control
        lda #8
        sta control
        lda $7000
        sta in4
        cli

again:  sta $8980               ; clears the watchdog
        lda in0
        sta in4
        lda in3
        sta in4
        sta one                 ; the pitch of POKEY 1
        lda in4
        sta in4
        sta two + 2             ; and of POKEY 2
        sta one + 11            ; the pots count anew
        sta two + 11
        ldx #50
wait:   dex
        bne wait
pots:   lda one, x
        sta in4
        lda two, x
        sta in4
        inx
        cpx #8
        bne pots
        lda one + 10
        sta in4
        sta $8840               ; starts the vector generator
        jmp again

        .org $A000
asked:  pha
        inc count
        lda count
        sta in4
        sta $88C0
        lda #0                  ; takes the timers' requests back
        sta one + 14
        sta two + 14
        lda #4
        sta one + 14
        lda #1
        sta two + 14
        pla
        rti

        .org $FFFC
        .word start, asked

; vim: ft=gravitar
