/* The board for C by cc65. docs/BOARD.md has what each address does. */
#ifndef BOARD_H
#define BOARD_H

#define BYTE_AT(address) (*(volatile unsigned char *)(address))
#define POKEY1(r) BYTE_AT(0x6000 + (r))
#define POKEY2(r) BYTE_AT(0x6800 + (r))
#define AUDF 0
#define AUDC 1
#define RANDOM 0x0A
#define SKCTL 0x0F
#define IN0 BYTE_AT(0x7800)
#define IN3 BYTE_AT(0x8000)
#define IN4 BYTE_AT(0x8800)
#define LAMP BYTE_AT(0x8800)
#define DRAW BYTE_AT(0x8840)
#define LIST ((unsigned *)0x2000)

/* The generator's words, for tables of unsigned. A target is an address from 0x2000 to 0x5FFF. */
#define VCTR(dx, dy, z) (dy) & 0x1FFF, ((dx) & 0x1FFF) | (unsigned)(z) << 13
#define SVEC(dx, dy, z) 0x4000 | (((dy) / 2) & 0x1F) << 8 | (z) << 5 | (((dx) / 2) & 0x1F)
#define STAT(colour, intensity) 0x6000 | (intensity) << 4 | (colour)
#define SCAL(binary, linear) 0x7000 | (binary) << 8 | (linear)
#define CNTR 0x8000
#define JSRL(target) 0xA000 | ((unsigned)(target) - 0x2000) >> 1
#define RTSL 0xC000
#define JMPL(target) 0xE000 | ((unsigned)(target) - 0x2000) >> 1
#define HALT 0x2000

/* Rises at each interrupt, 246 times a second. */
extern volatile unsigned char ticks;
#pragma zpsym("ticks")

#endif
