; A square with a diamond in it, drawn some sixty times a second, smaller each time.

dog     = $8980                 ; a write clears the watchdog
ack     = $88C0                 ; a write acknowledges the interrupt
draw    = $8840                 ; a write starts the vector generator
scale   = $2000                 ; its first word, in the vector RAM
linear  = scale                 ; the linear scale in it, 0 for the greatest size
irqs    = 4                     ; a picture at every fourth interrupt, 24,576 clocks
step    = 24                    ; what the linear scale grows by
left    = $10                   ; interrupts up to the next picture

        .org $9000
start:  lda #<$7100             ; scal 1, 0
        sta scale
        lda #>$7100
        sta scale+1
        lda #<$E400             ; jmpl $2800, where the picture is
        sta scale+2
        lda #>$E400
        sta scale+3
        lda #1
        sta left
        cli
wait:   jmp wait                ; all else is done by the interrupt

irq:    sta ack
        sta dog
        dec left
        bne done
        lda #irqs
        sta left
        sta draw
        rti

done:   lda left                ; halfway to the next picture, when this one has been drawn
        cmp #2
        bne back
        lda linear
        clc
        adc #step
        sta linear
back:   rti

        .org $FFFC
        .word start             ; the vector of a reset
        .word irq               ; and that of an interrupt

; vim: ft=gravitar
