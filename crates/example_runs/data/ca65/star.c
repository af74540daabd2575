/* A star of eight rays in C, for cc65: it turns while a button is down, and beeps.
 *   cl65 -t none -C gravitar-c.cfg -o star.img crt0.s star.c
 * Without -O: the optimiser of cc65 2.19 gives the second word of `vector` the high byte of its first one.
 * IN3 bit 3 turns it to the left, bit 2 to the right, as the layout "Gravitar" of the page has it. */
#include "board.h"

/* 32 values of the sine, 200 at most. */
static const int sine[32] = {
    0, 39, 77, 111, 141, 166, 185, 196, 200, 196, 185, 166, 141, 111, 77, 39,
    0, -39, -77, -111, -141, -166, -185, -196, -200, -196, -185, -166, -141, -111, -77, -39,
};
static unsigned *end;                   /* where the list has come to */
static unsigned char heading = 2;       /* 128 to a turn; a variable with a value, as C has them */

static void word(unsigned w) { *end++ = w; }
static void vector(int dx, int dy, unsigned char z)
{
    word(dy & 0x1FFF);
    word((dx & 0x1FFF) | (unsigned)z << 13);
}

/* The list for a heading: a ray goes out bright, and back in the dark. */
static void draw(void)
{
    unsigned char k, at;
    int x, y;

    end = LIST;
    word(CNTR);
    word(SCAL(1, 0));
    for (k = 0; k < 8; ++k) {
        at = (heading / 4 + k * 4) % 32;
        x = sine[at];
        y = sine[(at + 8) % 32];
        word(STAT(k % 7 + 1, 12));
        vector(x, y, 1);
        vector(-x, -y, 0);
    }
    word(HALT);
    DRAW = 0;
}

void main(void)
{
    unsigned char last = 0, in;

    POKEY1(SKCTL) = 3;
    for (;;) {
        while ((unsigned char)(ticks - last) < 4) { }
        last = ticks;
        in = IN3;
        if (!(in & 8)) --heading;
        if (!(in & 4)) ++heading;
        POKEY1(AUDF) = 60 + heading;
        POKEY1(AUDC) = (in & 12) == 12 ? 0xA0 : 0xA6;
        draw();
    }
}
