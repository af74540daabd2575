; The start of a program in C, for ca65: the stacks, the variables, and then main. The interrupt counts `ticks`,
; one at each 6,144th clock, and clears the watchdog: C need do nothing for either.

        .export __STARTUP__ : absolute = 1
        .export _exit, _ticks
        .import _main, zerobss, copydata, initlib
        .import __STACK_START__, __STACK_SIZE__
        .include "zeropage.inc"
        .include "board.inc"

        .segment "ZEROPAGE"
_ticks: .res 1

        .segment "STARTUP"
start:  cld
        ldx #$FF
        txs
        lda #<(__STACK_START__ + __STACK_SIZE__)
        sta sp
        lda #>(__STACK_START__ + __STACK_SIZE__)
        sta sp+1
        sta dog
        jsr zerobss
        sta dog
        jsr copydata
        jsr initlib
        cli
        jsr _main
_exit:  jmp _exit               ; main has ended: the interrupt goes on, nothing else does

irq:    sta ack
        sta dog
        inc _ticks
        rti

        .segment "VECTORS"
        .word start, start, irq

; vim: ft=gravitar
