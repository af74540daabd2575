; Frere Jacques as a round for two voices, one on each POKEY: the second begins four beats after the first.

dog     = $8980                 ; a write clears the watchdog
ack     = $88C0                 ; a write acknowledges the interrupt
skctl1  = $600F                 ; POKEY 1 and POKEY 2: 3 lets them run
skctl2  = $680F
silence = $A0                   ; a pure tone at level 0
loudest = $AF                   ; and at level 15

beat    = 32                    ; interrupts a beat; one comes at each 6,144th clock
c4      = 102                   ; AUDF of a note: 1,512,000 / 28 / 2 / (AUDF + 1) Hz
d4      = 91
e4      = 81
f4      = 76
g4      = 68

; Each voice has a byte or a pointer at X = 0 and at X = 2.
audf    = $20                   ; where its AUDF and AUDC are
audc    = $24
note    = $28                   ; its next note
left    = $2C                   ; interrupts up to it
tone    = $30                   ; its AUDC now

        .org $9000
start:  ldx #7
place:  lda places,x
        sta audf,x
        dex
        bpl place
        lda #1
        sta left
        lda #1 + beat + beat + beat + beat
        sta left+2
        lda #0
        sta note
        sta note+2
        lda #silence
        sta tone
        sta tone+2
        lda #3
        sta skctl1
        sta skctl2
        cli
wait:   jmp wait                ; all else is done by the interrupt

irq:    sta ack
        sta dog
        ldx #0
        jsr voice
        ldx #2
        jsr voice
        rti

voice:  dec left,x
        bne fade
        ldy note,x
        lda lengths,y
        beq over
        sta left,x
        lda notes,y
        sta (audf,x)
        lda #loudest
        sta tone,x
        sta (audc,x)
        inc note,x
        rts

over:   inc left,x              ; the voice has ended: it asks again each time
        lda #silence
        sta (audc,x)
        rts

fade:   lda left,x              ; the envelope: a level less at every second interrupt
        lsr a
        bcs same
        lda tone,x
        cmp #silence
        beq same
        dec tone,x
        lda tone,x
        sta (audc,x)
same:   rts

places: .word $6000, $6800      ; AUDF1 of both POKEYs
        .word $6001, $6801      ; AUDC1

notes:  .byte c4, d4, e4, c4, c4, d4, e4, c4
        .byte e4, f4, g4, e4, f4, g4
lengths: .byte beat, beat, beat, beat, beat, beat, beat, beat
        .byte beat, beat, beat + beat, beat, beat, beat + beat
        .byte 0

        .org $FFFC
        .word start             ; the vector of a reset
        .word irq               ; and that of an interrupt

; vim: ft=gravitar
