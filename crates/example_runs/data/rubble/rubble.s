; Rubble: a ship among rocks that drift and break. It has a coin and a start button, waves, a score in digits, six
; voices, and the EAROM for the best score. The buttons are those of Gravitar in docs/ROMS.md, 0 while down:
;   IN3 bit 3 left, bit 2 right, bit 4 engine, bit 1 fire; IN0 bit 1 coin; IN4 bit 5 start
; rubble.v has the font and the pictures. A game is over after three ships; a wave is over after its last rock.

in0     = $7800
in3     = $8000
in4     = $8800
lamp    = $8800                 ; the output latch: bit 0 lights the start button, bit 4 is the coin counter
draw    = $8840                 ; a write starts the vector generator
ack     = $88C0                 ; a write acknowledges the interrupt
dog     = $8980                 ; a write clears the watchdog
cell    = $8940                 ; the EAROM's cells
control = $8900
value   = $7000
random  = $680A                 ; of POKEY 2
skctl1  = $600F
skctl2  = $680F
list    = $2000                 ; a jump to one of two lists, at 2002 and at 2402

out     = $10                   ; where the list has come to
mode    = $12                   ; 0 title, 1 game, 2 its end
frame   = $13                   ; not 0 where a picture has to be made
time    = $14                   ; pictures so far
irqs    = $15                   ; interrupts up to the next picture
credits = $16
coin    = $17                   ; the coin's bit, as it was
paid    = $18                   ; coins that haven't sounded yet
heading = $19                   ; 64 to a turn, clockwise; 0 is up
nose    = $1A                   ; the heading as a place in the table, 0 to 31
flame   = $1B                   ; not 0 while the engine is on
lives   = $1C                   ; ships that wait
wave    = $1D                   ; two decimal digits
rocks   = $1E                   ; how many there are
timer   = $1F                   ; pictures up to what the mode waits for
safe    = $20                   ; pictures for which nothing harms the ship
fired   = $21                   ; the fire button, as it was
record  = $22                   ; not 0 after a game with a new best score
z       = $23                   ; 0 in the dark
bits    = $24
atx     = $25                   ; where the ship's shape has come to, from its middle
aty     = $26
dx      = $27
dy      = $28
score   = $29                   ; three bytes of two digits, the lowest first
high    = $2C                   ; the best score, and a byte that checks it
check   = high + 3
lit     = $30                   ; what the output latch has
temp    = $32
near    = $33                   ; how near a shot has to be
pulse   = $34                   ; pictures up to the next beat
tock    = $35
chip    = $36                   ; where a POKEY is
size    = $38
digits  = $39                   ; not 0 once a digit was written
counts  = $3A                   ; pictures for which the coin counter is on

; Voices: 0 to 2 are channels of POKEY 1, 3 to 5 of POKEY 2.
left    = $40                   ; pictures for which one sounds
pitch   = $46
step    = $4C                   ; what AUDF changes by
tone    = $52                   ; the high digit of AUDC

; Things: 0 is the ship, 1 to 4 are shots, 5 to 20 rocks, 21 to 23 bursts. A place and a speed have two bytes, and the
; high one is drawn: a 1 in it is 65,536 of a log. The field goes from -128 to 127, and from -112 to 111.
things  = 24
kind    = $0200                 ; 0 none, 1 to 3 a rock by its size, 4 the ship, 5 a shot, 6 a burst
xl      = $0220
xh      = $0240
yl      = $0260
yh      = $0280
vxl     = $02A0
vxh     = $02C0
vyl     = $02E0
vyh     = $0300
y_axis  = yl - xl               ; the same for places and speeds
life    = $0320                 ; pictures for which a shot or a burst stays
look    = $0340                 ; the low byte of a JSRL: look n is at 2F00 + 8 * n
look0   = $80
looks   = $A7                   ; and its high byte

        .org $9000
start:  ldx #$FF
        txs
        inx
        txa
clean:  sta $00,x               ; after a reset by the watchdog memory isn't 0
        sta $0200,x
        sta $0300,x
        inx
        bne clean
        sta list+2              ; both lists are empty
        sta list+$402
        lda #$20                ; halt
        sta list+3
        sta list+$403
        lda #$01                ; jmpl $2002, and by E2 instead of E0 jmpl $2402
        sta list
        lda #$E0
        sta list+1
        lda #3
        sta skctl1
        sta skctl2
        lda #2
        sta coin
        lda #1
        sta irqs
        sta pulse
        jsr recall
        jsr title
        cli

again:  lda frame
        beq again
        lda #0
        sta frame
        sta dog
        inc time
        jsr play
        jsr move
        jsr hits
        jsr lamps
        jsr sounds
        jsr picture
        jmp again

irq:    pha
        sta ack
        lda in0
        and #2
        cmp coin
        beq same
        sta coin
        cmp #2
        beq same
        inc paid                ; the coin's bit fell: a credit, up to 9
        lda credits
        cmp #9
        bcs same
        inc credits
same:   dec irqs
        bne back
        lda #4
        sta irqs
        sta draw
        inc frame
back:   pla
        rti

; What each mode does before a picture.
title:  lda #0
        sta mode
        sta wave
        jsr empty
        lda #4
        jmp fill

play:   lda mode
        beq wait
        cmp #1
        beq game
        dec timer               ; the game is over: four seconds of that
        beq title
        rts
wait:   lda credits
        beq waits
        lda in4
        and #$20
        bne waits
        dec credits
        lda #0
        sta score
        sta score+1
        sta score+2
        sta wave
        sta record
        sta timer
        lda #3
        sta lives
        lda #1
        sta mode
        jsr empty
        jmp launch
waits:  rts

game:   lda rocks
        bne fly
        lda timer               ; no rock is left: a wave begins
        bne soon
        sed
        lda wave
        clc
        adc #1
        sta wave
        cld
        lda #120
        sta timer
        ldx #8
        jsr sound
        jmp fly
soon:   cmp #40
        bne fly
        lda wave                ; it has 3 rocks, then 4, up to 7
        clc
        adc #2
        cmp #8
        bcc few
        lda #7
few:    jsr fill
fly:    lda timer
        beq flies
        dec timer
flies:  lda kind
        bne steer
        lda timer               ; the ship is lost
        bne waits
        lda lives
        beq over

launch: ldx #0                  ; a ship in the middle, safe for two seconds
        stx heading
        stx xh
        stx yh
        stx vxl
        stx vxh
        stx vyl
        stx vyh
        lda #4
        sta kind
        lda #120
        sta safe
        dec lives
        rts

over:   lda #2
        sta mode
        lda #240
        sta timer
        lda high
        cmp score
        lda high+1
        sbc score+1
        lda high+2
        sbc score+2
        bcs waits
        inc record
        ldx #2
best:   lda score,x
        sta high,x
        dex
        bpl best
        ldx #4
        jsr sound
        jmp keep

steer:  lda safe
        beq turn
        dec safe
turn:   lda in3
        and #8
        bne right
        dec heading
right:  lda in3
        and #4
        bne ahead
        inc heading
ahead:  lda heading
        lsr a
        and #31
        sta nose
        lda in3
        and #$10
        eor #$10
        sta flame
        beq fire
        lda #6                  ; the engine's noise
        sta left
        lda #$80
        sta tone
        lda random
        and #15
        ora #$30
        sta pitch
        lda nose
        jsr sine
        ldx #0
        jsr push
        lda nose
        jsr cosine
        ldx #y_axis
        jsr push
fire:   lda in3
        and #2
        cmp fired
        beq fires
        sta fired
        cmp #2
        beq fires
        ldy #4
free:   lda kind,y
        beq shoot
        dey
        bne free
fires:  rts                     ; or four shots are out
shoot:  lda #5
        sta kind,y
        lda #look0
        sta look,y
        lda #38
        sta life,y
        ldx #0
        jsr copy
        tya
        tax
        lda nose
        jsr sine
        jsr throw
        txa
        clc
        adc #y_axis
        tax
        lda nose
        jsr cosine
        jsr throw
        ldx #0
        jmp sound

push:   ldy #3                  ; an eighth of A more speed at X
eighth: cmp #$80
        ror a
        dey
        bne eighth
        sty bits
        cmp #$80
        bcc add
        dec bits
        bne add                 ; always
throw:  pha                     ; sixteen times A more speed at X
        ldy #4
high4:  cmp #$80
        ror a
        dey
        bne high4
        sta bits
        pla
        asl a
        asl a
        asl a
        asl a
add:    clc
        adc vxl,x
        sta temp
        lda bits
        adc vxh,x
        sta bits
        txa
        and #$3F
        bne takes
        lda bits                ; the ship is never faster than 3
        cmp #3
        bcc takes
        cmp #$FD
        bcc full
takes:  lda bits
        sta vxh,x
        lda temp
        sta vxl,x
full:   rts

cosine: clc                     ; the table's value a quarter of a turn behind A
        adc #8
sine:   and #31
        tay
        lda sines,y
        rts

copy:   lda xl,x                ; thing Y gets the place and the speed of thing X
        sta xl,y
        lda xh,x
        sta xh,y
        lda yl,x
        sta yl,y
        lda yh,x
        sta yh,y
        lda vxl,x
        sta vxl,y
        lda vxh,x
        sta vxh,y
        lda vyl,x
        sta vyl,y
        lda vyh,x
        sta vyh,y
        rts

empty:  ldx #things - 1         ; nothing is in the field
        lda #0
        sta rocks
        sta flame
wipe:   sta kind,x
        sta life,x
        dex
        bpl wipe
        rts

fill:   sta size                ; A large rocks, at the field's edges
        ldx #5
large:  lda #3
        sta kind,x
        lda random
        sta xh,x
        lda #$90
        sta yh,x
        txa
        lsr a
        bcc form
        lda #$80
        sta xh,x
        lda random
        and #$7F
        sbc #64
        sta yh,x
form:   txa
        and #3
        tay
        lda forms,y
        sta look,x
        jsr speed
        inc rocks
        inx
        dec size
        bne large
        rts

speed:  ldy kind,x              ; a new way for rock X, faster for smaller ones
        jsr axis
        txa
        pha
        clc
        adc #y_axis
        tax
        jsr axis
        pla
        tax
        rts
axis:   lda random
        and #$3F
        adc least,y
        sta vxl,x
        lda #0
        sta vxh,x
        lda random
        eor time
        lsr a
        bcc set
        lda #0                  ; the other way
        sbc vxl,x
        sta vxl,x
        lda #$FF
        sta vxh,x
set:    rts

move:   ldx #things - 1
each:   lda kind,x
        beq moved
        lda xl,x
        clc
        adc vxl,x
        sta xl,x
        lda xh,x
        adc vxh,x
        sta xh,x
        lda yl,x
        clc
        adc vyl,x
        sta yl,x
        lda yh,x
        adc vyh,x
        cmp #112
        bcc inside
        cmp #$90
        bcs inside
        eor #$E0                ; 112 is -112, and -113 is 111
inside: sta yh,x
        lda life,x
        beq moved
        dec life,x
        bne moved
        lda #0
        sta kind,x
moved:  dex
        bpl each
        rts

hits:   ldx #20
rock:   ldy kind,x
        beq other
        lda reach,y
        sta near
        ldy #4
shot:   lda kind,y
        beq misses
        jsr apart
        bcs misses
        lda #0
        sta kind,y
        sta life,y
        jsr broken
        jmp other
misses: dey
        bne shot
        lda kind                ; Y is 0, the ship
        beq other
        lda safe
        bne other
        inc near
        inc near
        inc near
        jsr apart
        bcs other
        jsr broken
        txa
        pha
        ldx #0
        stx flame
        jsr spark
        stx kind
        lda #150
        sta timer
        ldx #7
        jsr sound
        pla
        tax
other:  dex
        cpx #4
        bne rock
        rts

apart:  lda xh,x                ; carry is clear where things X and Y are near each other
        sec
        sbc xh,y
        bpl beside
        eor #$FF
beside: cmp near
        bcs far
        lda yh,x
        sec
        sbc yh,y
        bpl under
        eor #$FF
under:  cmp near
far:    rts

broken: ldy kind,x              ; rock X breaks
        sed
        clc
        lda score
        adc points,y
        sta score
        lda score+1
        adc hundred,y
        sta score+1
        lda score+2
        adc #0
        sta score+2
        cld
        txa
        pha
        tya
        tax
        jsr sound
        pla
        tax
        jsr spark
        dec rocks
        dec kind,x
        beq far
        inc rocks
        lda look,x              ; the next smaller look
        sec
        sbc #4
        sta look,x
        jsr speed
        ldy #20
room:   lda kind,y
        beq twin
        dey
        cpy #4
        bne room
        rts                     ; there are too many for a second one
twin:   inc rocks
        jsr copy
        lda kind,x
        sta kind,y
        lda look,x
        sta look,y
        txa
        pha
        tya
        tax
        jsr speed
        pla
        tax
        rts

spark:  ldy #23                 ; a burst where thing X is
idle:   lda kind,y
        beq burst
        dey
        cpy #21
        bne idle
burst:  lda #6
        sta kind,y
        lda #31
        sta life,y
        jmp copy

lamps:  lda paid
        beq counter
        dec paid
        lda #10
        sta counts
        ldx #4
        jsr sound
counter: lda counts
        beq start1
        dec counts
        lda #$10
start1: sta temp
        lda mode
        bne latch
        lda credits
        beq latch
        lda time
        and #$20
        beq latch
        inc temp
latch:  lda temp
        cmp lit
        beq lights
        sta lit
        sta lamp
lights: rts

sound:  ldy voices,x            ; effect X begins
        lda lasts,x
        sta left,y
        lda starts,x
        sta pitch,y
        lda steps,x
        sta step,y
        lda tones,x
        sta tone,y
        rts

sounds: lda kind                ; two low notes, the faster the fewer rocks are left
        cmp #4
        bne voiced
        lda rocks
        beq voiced
        dec pulse
        bne voiced
        asl a
        adc #14
        sta pulse
        lda tock
        eor #1
        sta tock
        clc
        adc #5
        tax
        jsr sound
voiced: ldx #0
        stx chip
        ldy #0
        lda #$60
        sta chip+1
voice:  lda left,x
        beq mute
        dec left,x
        lsr a
        cmp #9
        bcc level
        lda #9
level:  ora tone,x
        sta temp
        lda pitch,x
        clc
        adc step,x
        sta pitch,x
        sta (chip),y
        lda temp
mute:   iny
        sta (chip),y
        iny
        inx
        cpx #3
        bne one
        ldy #0
        lda #$68
        sta chip+1
one:    cpx #6
        bne voice
        rts

picture: lda list+1             ; the list that isn't drawn now
        eor #2
        pha
        asl a                   ; E0 and E2 become C0 and C4, and then 20 and 24
        eor #$E0
        sta out+1
        lda #2
        sta out
        ldx #edge - texts
        jsr say
        ldx #things - 1
show:   lda kind,x
        beq shown
        cmp #6
        bne steady
        lda life,x              ; a burst has four looks
        lsr a
        and #12
        clc
        adc #look0 + 48
        sta look,x
steady: jsr place
        cpx #0
        beq ship
        lda look,x
        jsr looking
        jsr advance
shown:  dex
        bpl show
        jmp words

ship:   lda safe
        and #8
        bne hidden              ; it blinks while nothing harms it
        jsr hull
hidden: jsr advance

words:  ldx #score1 - texts
        jsr say
        ldx #0
        jsr number
        ldx #high1 - texts
        jsr say
        ldx #high - score
        jsr number
        lda lives
        beq modes
        sta size
icon:   lda size
        asl a
        asl a
        clc
        adc #icons - texts - 4
        tax
        jsr say
        dec size
        bne icon
modes:  lda mode
        beq titles
        cmp #1
        bne ended
        lda timer
        beq done
        lda rocks
        bne done
        ldx #wave1 - texts
        jsr say
        ldy #0
        sty digits
        lda wave
        jsr pair
        jsr advance
        jmp done
ended:  ldx #over1 - texts
        jsr say
        lda record
        beq done
        ldx #best1 - texts
        jsr say
        jmp done
titles: ldx #name - texts
        jsr say
        ldx #keys1 - texts
        jsr say
        ldx #keys2 - texts
        jsr say
        ldx #keys3 - texts
        jsr say
        ldx #cred1 - texts
        jsr say
        ldy #0
        lda credits
        jsr char
        jsr advance
        lda time
        and #$20
        beq done
        ldx #coin1 - texts
        lda credits
        beq asks
        ldx #start2 - texts
asks:   jsr say
done:   ldy #0
        tya
        sta (out),y
        iny
        lda #$20                ; halt
        sta (out),y
        pla
        sta list+1
        rts

place:  ldy #0                  ; to the place of thing X, in the dark: Y is where the list goes on
        jsr middle
        lda yh,x
        jsr coord
        lda xh,x
coord:  asl a                   ; a half of a vector with z 0: twice A
        sta (out),y
        iny
        lda #0
        bcc plus
        lda #$1F
plus:   sta (out),y
        iny
        rts

middle: lda #0                  ; cntr, scal 0, 0
        sta (out),y
        iny
        lda #$80
        sta (out),y
        iny
        lda #0
        sta (out),y
        iny
        lda #$70
        bne last                ; always

looking: sta (out),y            ; a JSRL of a look
        iny
        lda #looks
last:   sta (out),y
        iny
        rts

advance: tya                     ; the list goes on behind what was written
        clc
        adc out
        sta out
        bcc onpage
        inc out+1
onpage: rts

say:    ldy #0                  ; the text at X: its place, its look and its signs
        jsr middle
        lda texts+1,x
        jsr coord
        lda texts,x
        jsr coord
        lda texts+2,x
        jsr looking
signs:  lda texts+3,x
        cmp #255
        beq advance
        jsr char
        inx
        bne signs               ; always

char:   sta temp                ; the JSRL of sign A
        asl a
        asl a
        asl a
        asl a
        sta (out),y
        iny
        lda temp
        lsr a
        lsr a
        lsr a
        lsr a
        clc
        adc #$A4
        sta (out),y
        iny
        rts

number: ldy #0                  ; the six digits at X behind `score`, without zeros in front
        sty digits
        lda score+2,x
        jsr pair
        lda score+1,x
        jsr pair
        inc digits
        lda score,x
        jsr pair
        jmp advance
pair:   pha
        lsr a
        lsr a
        lsr a
        lsr a
        jsr digit
        pla
        and #15
digit:  bne written
        lda digits
        beq blank
        lda #0
        beq char                ; always
blank:  lda #36
        bne char                ; always
written: inc digits
        bne char                ; always

; The ship from its nose, after its place. A point of the table is drawn to from where the shape has come to.
hull:   txa
        pha
        lda #0
        sta z
        sta atx
        sta aty
        ldx #0
        jsr word                ; its scale
        lda flame
        beq sides
        lda time                ; the flame flickers
        lsr a
        bcc sides
        lda #12
        jsr point
        ldx #2
        jsr bright
        lda #16
        jsr point
sides:  lda #20
        jsr point
        ldx #4
        jsr bright
        lda #0
        jsr point
        lda #12
        jsr point
        lda #0
        ldx #0
        jsr to
        lda #0
        jsr across
        lda #20
        jsr point
        pla
        tax
        rts

word:   lda shapes,x
        sta (out),y
        iny
        lda shapes+1,x
        sta (out),y
        iny
        rts

bright: lda #$20                ; z 1, as it stands in the high byte of a vector's second word
        sta z
        bne word                ; always

point:  clc                     ; a vector to the point that is A places from the nose
        adc nose
        pha
        sty size
        jsr sine
        ldx #0
        jsr to
        pla
        jsr cosine
        ldy size
across: ldx #1
        jsr to

vector: lda #0                  ; two words: dy, and dx with z
        sta bits
        lda dy
        jsr signed
        lda z
        sta bits
        lda dx
signed: sta (out),y
        iny
        and #$80                ; the sign goes into bits 8 to 12
        beq store
        lda #$1F
store:  ora bits
        sta (out),y
        iny
        rts

to:     pha                     ; how far it is to A, in x (X 0) or y (X 1)
        sec
        sbc atx,x
        sta dx,x
        pla
        sta atx,x
        rts

; The EAROM has the best score in its first three cells, and a check in the fourth.
recall: ldx #3
read:   sta cell,x
        lda #9                  ; the cell is read where the clock line falls
        sta control
        lda #8
        sta control
        lda value
        sta high,x
        dex
        bpl read
        jsr sum
        cmp check
        beq known
        lda #0                  ; a new EAROM
        sta high
        sta high+1
        sta high+2
known:  rts

keep:   jsr sum
        sta check
        ldx #3
erase:  lda high,x
        sta cell,x
        lda #$E                 ; the cell becomes FF
        jsr hold
        lda #$A                 ; and loses the bits that the data has clear
        jsr hold
        dex
        bpl erase
        lda #8
        sta control
        rts
hold:   sta control             ; more than 1,512 clocks
        ldy #0
holds:  nop
        dey
        bne holds
        rts

sum:    lda high
        eor high+1
        eor high+2
        eor #$5A
        rts

shapes: .word $7240             ; scal 2, 64
        .word $60F4             ; stat 4, 15, the flame
        .word $60F7             ; stat 7, 15, the ship

sines:  .byte 0, 12, 23, 33, 42, 50, 55, 59, 60, 59, 55, 50, 42, 33, 23, 12
        .byte 0, -12, -23, -33, -42, -50, -55, -59, -60, -59, -55, -50, -42, -33, -23, -12

; By the kind of a rock, small, middle, large.
reach:  .byte 0, 4, 7, 12
least:  .byte 0, 96, 56, 24     ; of its speed
points: .byte 0, $00, $50, $20
hundred: .byte 0, 1, 0, 0
forms:  .byte look0 + 12, look0 + 28, look0 + 44, look0 + 28

; Effects: a shot, a rock of each size, a coin, two beats, the ship, a wave.
voices: .byte 1, 3, 3, 3, 4, 2, 2, 5, 4
lasts:  .byte 14, 18, 24, 34, 26, 8, 8, 90, 40
starts: .byte 20, 12, 40, 90, 60, 230, 250, 60, 120
steps:  .byte 5, 3, 3, 2, -2, 0, 0, 2, -3
tones:  .byte $A0, $80, $80, $80, $A0, $A0, $A0, $80, $A0

; Texts: x, y, a look, and the signs of the font; 255 ends one.
texts:
edge:   .byte 0, 0, look0 + 32
        .byte 255
name:   .byte 0, 30, look0 + 80
        .byte 255
score1: .byte -122, 102, look0 + 64
        .byte 255
high1:  .byte -13, 102, look0 + 76
        .byte 255
icons:  .byte 112, 100, look0 + 16, 255, 103, 100, look0 + 16, 255, 94, 100, look0 + 16, 255
wave1:  .byte -16, 20, look0 + 68   ; WAVE
        .byte 32, 10, 31, 14, 255
over1:  .byte -39, 20, look0 + 68   ; GAME OVER
        .byte 16, 10, 22, 14, 36, 24, 31, 14, 27, 255
best1:  .byte -38, 0, look0 + 72   ; A NEW BEST SCORE!
        .byte 10, 36, 23, 14, 32, 36, 11, 14, 28, 29, 36, 28, 12, 24, 27, 14, 41, 255
coin1:  .byte -48, -30, look0 + 68   ; INSERT COIN
        .byte 18, 23, 28, 14, 27, 29, 36, 12, 24, 18, 23, 255
start2: .byte -48, -30, look0 + 68   ; PRESS START
        .byte 25, 27, 14, 28, 28, 36, 28, 29, 10, 27, 29, 255
keys1:  .byte -38, -60, look0 + 76   ; LEFT, RIGHT: TURN
        .byte 21, 14, 15, 29, 38, 36, 27, 18, 16, 17, 29, 43, 36, 29, 30, 27, 23, 255
keys2:  .byte -51, -70, look0 + 76   ; UP: ENGINE  SPACE: FIRE
        .byte 30, 25, 43, 36, 14, 23, 16, 18, 23, 14, 36, 36, 28, 25, 10, 12, 14, 43, 36, 15, 18, 27
        .byte 14, 255
keys3:  .byte -38, -80, look0 + 76   ; 5: COIN  1: START
        .byte 5, 43, 36, 12, 24, 18, 23, 36, 36, 1, 43, 36, 28, 29, 10, 27, 29, 255
cred1:  .byte -18, -102, look0 + 64   ; CREDITS 
        .byte 12, 27, 14, 13, 18, 29, 28, 36, 255

        .org $FFFC
        .word start             ; the vector of a reset
        .word irq               ; and that of an interrupt

; vim: ft=gravitar
