; A ship that turns and thrusts: 61 pictures a second, with a sound for the engine and one for each turn.

in3     = $8000                 ; bit 0 left, bit 1 right, bit 2 thrust: 0 while a button is down
draw    = $8840                 ; a write starts the vector generator
ack     = $88C0                 ; a write acknowledges the interrupt
dog     = $8980                 ; a write clears the watchdog
audf1   = $6000                 ; POKEY 1, channel 1: the engine
audc1   = $6001
skctl1  = $600F
audf2   = $6800                 ; POKEY 2, channel 1: the turns
audc2   = $6801
skctl2  = $680F
list    = $2000                 ; the generator's list, in the vector RAM
irqs    = 4                     ; a picture at each fourth interrupt, 24,576 clocks

left    = $10                   ; interrupts up to the next picture
heading = $11                   ; 64 to a turn, clockwise; 0 is up
nose    = $12                   ; the heading as a place in the table, 0 to 31
flame   = $13                   ; not 0 while the engine is on
z       = $14                   ; 0 in the dark
bits    = $15
atx     = $16                   ; where the list has come to, from the ship's middle
aty     = $17
dx      = $18
dy      = $19
place   = $20                   ; x and y, two bytes each: the high one is what is drawn
speed   = $24                   ; the same for a picture's way

        .org $9000
start:  lda #3
        sta skctl1
        sta skctl2
        lda #40
        sta audf1
        lda #-70                ; left of the middle; all else is 0
        sta place+1
        lda #1
        sta left
        cli
wait:   jmp wait                ; all else is done by the interrupt

irq:    sta ack
        sta dog
        dec left
        bne back
        lda #irqs
        sta left
        jsr turn
        jsr thrust
        jsr move
        jsr write
        sta draw
back:   rti

turn:   ldx #0                  ; silence
        lda in3
        lsr a
        bcs right
        dec heading
        ldx #$A6                ; a pure tone at level 6
right:  lsr a
        bcs turned
        inc heading
        ldx #$A6
turned: stx audc2
        lda heading
        lsr a
        and #31
        sta nose
        asl a
        adc #60                 ; the tone falls as the ship turns to the right
        sta audf2
        rts

thrust: lda in3
        and #4
        eor #4
        sta flame
        beq quiet               ; A is 0: silence
        ldx nose
        lda wave,x
        ldx #0
        jsr push
        lda nose
        jsr cosine
        ldx #2
        jsr push
        lda #$8A                ; noise at level 10
quiet:  sta audc1
        rts

push:   ldy #3                  ; adds an eighth of A to the speed at X
half:   cmp #$80                ; the sign goes into the carry, and from there into bit 7
        ror a
        dey
        bne half
        cmp #$80
        bcc plus
        dec speed+1,x
plus:   clc
        adc speed,x
        sta speed,x
        bcc pushed
        inc speed+1,x
pushed: rts

cosine: clc                     ; the table's value a quarter of a turn behind place A
        adc #8
        and #31
        tax
        lda wave,x
        rts

move:   ldx #2                  ; y, and then x by the same lines
        jsr axis
        ldx #0
axis:   lda speed,x
        clc
        adc place,x
        sta place,x
        lda speed+1,x
        adc place+1,x
        sta place+1,x
        rts

write:  ldy #0                  ; Y goes along the list
first:  lda words,y
        sta list,y
        iny
        cpy #6
        bne first
        lda #0
        sta z
        sta atx
        sta aty
        lda place+1
        sta dx
        lda place+3
        sta dy
        jsr vector              ; in the dark to the ship's middle
        ldx #6
        jsr word                ; its scale
        lda flame
        beq hull
        lda #12
        jsr point
        ldx #8
        jsr bright
        lda #16
        jsr point
hull:   lda #20                 ; the flame's other side, or in the dark
        jsr point
        ldx #10
        jsr bright
        lda #0
        jsr point               ; the nose
        lda #12
        jsr point
        lda #0
        ldx #0
        jsr to
        lda #0
        jsr middle
        lda #20
        jsr point
        ldx #12                 ; the halt

word:   lda words,x             ; the word at X of the table goes into the list
        sta list,y
        iny
        lda words+1,x
        sta list,y
        iny
        rts

bright: lda #$20                ; z 1, as it stands in the high byte of a vector's second word
        sta z
        bne word                ; always

point:  clc                     ; a vector to the point of the table that is A places from the nose
        adc nose
        and #31
        pha
        tax
        lda wave,x
        ldx #0
        jsr to
        pla
        jsr cosine
middle: ldx #1
        jsr to

vector: lda #0                  ; two words: dy, and dx with z
        sta bits
        lda dy
        jsr coord
        lda z
        sta bits
        lda dx
coord:  sta list,y
        iny
        and #$80                ; the sign goes into bits 8 to 12
        beq store
        lda #$1F
store:  ora bits
        sta list,y
        iny
        rts

to:     pha                     ; how far it is to A, in x (X 0) or y (X 1)
        sec
        sbc atx,x
        sta dx,x
        pla
        sta atx,x
        rts

words:  .word $A400             ; jsrl $2800, the scene
        .word $8000             ; cntr
        .word $7100             ; scal 1, 0
        .word $7300             ; scal 3, 0: the ship is a quarter as large as its table
        .word $60F4             ; stat 4, 15, the flame
        .word $60F6             ; stat 6, 15, the ship
        .word $2000             ; halt

wave:   .byte 0, 12, 23, 33, 42, 50, 55, 59, 60, 59, 55, 50, 42, 33, 23, 12
        .byte 0, -12, -23, -33, -42, -50, -55, -59, -60, -59, -55, -50, -42, -33, -23, -12

        .org $FFFC
        .word start             ; the vector of a reset
        .word irq               ; and that of an interrupt

; vim: ft=gravitar
