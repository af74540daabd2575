/* gravitar: a colour vector arcade board as calls of plain bytes and numbers.
 *
 * A board is 4,356 bytes, those of `gravitar run --save`. Nothing is kept between two calls, and no
 * pointer. So calls may run side by side, a board is copied by memcpy, and a run that is done in
 * stretches is the run that is done at once.
 *
 * The caller keeps these rules, which no proof sees. Where one is broken, what happens is undefined.
 *
 * - A pointer points to as many bytes as its length says. It isn't null, also where the length is 0.
 * - `report` isn't null, and is aligned as a struct of uint64_t.
 * - A length is at most PTRDIFF_MAX.
 * - What a call writes (board, buffer, report) overlaps nothing else that the call is given.
 * - While a call runs, nobody writes what it was given, and nobody reads what it writes.
 * - The thread has 256 KiB of stack. A thread of musl has 128 KiB where it isn't told otherwise. A library of
 *   tools/quick.sh --lib takes less, measured on a painted stack: 114,280 bytes in gravitar_command, 56,002 in
 *   gravitar_pcm, 55,922 in gravitar_records, 55,906 in gravitar_advance, 13,218 in gravitar_power_on, and 4,216
 *   in gravitar_assemble.
 *
 * The caller owns all memory. malloc, realloc and free are called inside, and nothing is left
 * allocated. A call that runs takes as many bytes as its buffer has (text_len, array_len or samples_len)
 * for what it puts out, and beside them at most 12 MB and the tape; measured are 1.1 MB. A text that is too
 * long for the buffer is counted and not kept, however long it is, and so are records and samples. A call
 * takes some 3 to 5 ns of a processor for each clock that it runs, and up to 20 ns where the program writes
 * the output latch again and again; so whoever limits the clocks of a call limits its time.
 * docs/EMBED.md shows a program in C, one in Python and one in Rust.
 */
#ifndef GRAVITAR_H
#define GRAVITAR_H

#include <stddef.h>
#include <stdint.h>

#ifdef __cplusplus
extern "C" {
#endif

#define GRAVITAR_VERSION 3
#define GRAVITAR_BOARD_LEN 4356
#define GRAVITAR_IMAGE_LEN 43008
#define GRAVITAR_CLOCK_LIMIT (UINT64_C(1) << 48)

/* What a call returns. From GRAVITAR_BAD_IMAGE on nothing was done: board and image are as they were. */
enum gravitar_status {
    GRAVITAR_DONE = 0,
    GRAVITAR_JAMMED = 1,               /* done, and an undocumented opcode has stopped the processor */
    GRAVITAR_BAD_IMAGE = 2,            /* place: how many bytes it has */
    GRAVITAR_BAD_BOARD = 3,            /* place: the offset of the first field out of its range */
    GRAVITAR_BAD_TAPE = 4,             /* place: the line, from 1; 0 where it is longer than 16 MiB */
    GRAVITAR_BAD_NUMBER = 5,           /* place: the number */
    GRAVITAR_NO_ROOM = 6,              /* used: how many bytes are wanted */
    GRAVITAR_NO_MEMORY = 7,
    GRAVITAR_BAD_PROCESSOR_SOURCE = 8, /* place: the line, from 1; 0 where it is too long */
    GRAVITAR_BAD_GENERATOR_SOURCE = 9, /* place: the line, from 1; 0 where it is too long */
    GRAVITAR_BAD_BOARD_LENGTH = 10,    /* place: how many bytes the board has */
    GRAVITAR_BAD_BOARD_VERSION = 11,   /* place: the board's version */
    GRAVITAR_BAD_REQUEST = 12          /* place: the offset at which the request isn't well formed */
};

/* Numbers of an answer. Each call that takes one sets all three. */
struct gravitar_report {
    uint64_t clock; /* the clock of the board at the end, or 0 */
    uint64_t used;  /* bytes of the text or the words; the buffer has the first min(used, its length) */
    uint64_t place; /* where something is wrong, by the status, or 0 */
};

/* The version of these calls, GRAVITAR_VERSION. */
uint32_t gravitar_version(void);

/* Puts the board at power-on into a buffer of GRAVITAR_BOARD_LEN bytes or more.
 * GRAVITAR_DONE or GRAVITAR_NO_ROOM. */
uint32_t gravitar_power_on(uint8_t *board, size_t board_len);

/* Runs an image with a tape from a board to a clock: with `boundary` 0 to just that clock, inside an
 * instruction too, else to the first boundary between instructions that isn't before it. The board at the
 * end is put in the place of the one before. A board that has come so far already stays as it is.
 *
 * image: GRAVITAR_IMAGE_LEN bytes. board: GRAVITAR_BOARD_LEN bytes, changed in place. tape: a text, of
 * which entries below the board's clock are not applied; its END line is only a line. clock:
 * GRAVITAR_CLOCK_LIMIT at most. timers: not 0 where the POKEYs' timers reach the interrupt line; a board
 * doesn't keep it, so it is told in each call.
 *
 * text gets the lines of the records on the way, as the log of `gravitar run` has them but for its last
 * line (docs/FORMATS.md), and used their bytes. Where it is too short, nothing is done, and used is what
 * it takes. Where bytes are refused, text gets the words of it, as many as there is room for.
 *
 * GRAVITAR_DONE, JAMMED, BAD_IMAGE, BAD_BOARD, BAD_BOARD_LENGTH, BAD_BOARD_VERSION, BAD_TAPE,
 * BAD_NUMBER, NO_ROOM or NO_MEMORY. */
uint32_t gravitar_advance(const uint8_t *image, size_t image_len, uint8_t *board, size_t board_len,
                          const uint8_t *tape, size_t tape_len, uint64_t clock, uint32_t boundary,
                          uint32_t timers, uint8_t *text, size_t text_len,
                          struct gravitar_report *report);

/* A record of the board, as gravitar_records gives it: 40 bytes, and sizeof(struct gravitar_record) is 40. On
 * a machine whose numbers have their lowest byte first, as each that this library is built for, these bytes are
 * the struct, so the array is one of structs. */
enum gravitar_kind {
    GRAVITAR_STROKE = 0,   /* values: x0, y0, x1, y1, colour 0 to 7, intensity 1 to 15 */
    GRAVITAR_POKEY_1 = 1,  /* values: four levels 0 to 15, which are those of POKEY 1 from this clock on */
    GRAVITAR_POKEY_2 = 2,  /* those of POKEY 2 */
    GRAVITAR_LATCH = 3,    /* values: the byte written to the output latch */
    GRAVITAR_WATCHDOG = 4  /* a watchdog reset */
};
struct gravitar_record {
    uint64_t clock;    /* in which it came */
    uint32_t kind;
    int32_t values[6]; /* those that the kind doesn't have are 0 */
    uint32_t unused;   /* 0 */
};

/* gravitar_advance with structs in place of lines: a record for each line, in the same order. array has
 * array_len bytes, 40 for each record, and is aligned as the struct; used is the bytes of all records.
 * Where bytes are refused, array gets the words of it. */
uint32_t gravitar_records(const uint8_t *image, size_t image_len, uint8_t *board, size_t board_len,
                          const uint8_t *tape, size_t tape_len, uint64_t clock, uint32_t boundary,
                          uint32_t timers, uint8_t *array, size_t array_len,
                          struct gravitar_report *report);

/* gravitar_advance to the first boundary that isn't before the clock, with samples in place of lines: for each
 * `per` clocks, 1 to 65535, the sum of both POKEYs' eight levels over them, as four bytes, the lowest
 * first. Clocks at the end that are no whole group give none. */
uint32_t gravitar_pcm(const uint8_t *image, size_t image_len, uint8_t *board, size_t board_len,
                      const uint8_t *tape, size_t tape_len, uint64_t clock, uint32_t per,
                      uint32_t timers, uint8_t *samples, size_t samples_len,
                      struct gravitar_report *report);

/* Assembles the processor's source and then the generator's (docs/ASSEMBLER.md) into an image, of which
 * all other bytes are 0. image: GRAVITAR_IMAGE_LEN bytes or more, of which used is how many were put there,
 * or with GRAVITAR_NO_ROOM are wanted. Where a source is refused, note gets the words of it, as many as
 * there is room for, used tells their bytes, and the image stays as it was.
 *
 * GRAVITAR_DONE, BAD_PROCESSOR_SOURCE, BAD_GENERATOR_SOURCE, NO_ROOM or NO_MEMORY. The listing of both
 * sources comes from gravitar_command with the words `asm`, two names and a third. */
uint32_t gravitar_assemble(const uint8_t *processor, size_t processor_len, const uint8_t *generator,
                           size_t generator_len, uint8_t *image, size_t image_len, uint8_t *note,
                           size_t note_len, struct gravitar_report *report);

/* Does a command line of the program `gravitar` over files in memory (docs/COMMANDS.md): each of its nine
 * commands, with the same text, note, stores and status. docs/FORMATS.md, "A command line as bytes", has the
 * bytes of both buffers; gravitar_put and gravitar_next below write and read them.
 *
 * request: the number of words and the number of files, each in 8 bytes, the lowest first; each word behind
 * its length in 8 bytes, without the program's name; each file as a name and its bytes, both behind their
 * lengths; nothing more. Words and names are UTF-8. Of two files with one name the later one is there.
 *
 * answer gets the status of the command, 0 to 5, and the lengths of its text, its note and its stores, each in
 * 8 bytes; the text (standard output), the note (standard error), and the stores in their order, each a name and
 * its bytes like a file. used is the length of all of it. Where that is too long for the buffer, nothing is put
 * there, and used says what is wanted: the call is to be made again with more room.
 *
 * It takes twice answer_len, the files twice, and 8 MB at most beside them.
 *
 * GRAVITAR_DONE, BAD_REQUEST, NO_ROOM or NO_MEMORY. */
uint32_t gravitar_command(const uint8_t *request, size_t request_len, uint8_t *answer, size_t answer_len,
                          struct gravitar_report *report);

/* Writes a number of a request in 8 bytes, or reads one of an answer. */
static inline void gravitar_put_number(uint8_t *at, uint64_t number) {
    for (int i = 0; i < 8; i++) at[i] = (uint8_t)(number >> (8 * i));
}
static inline uint64_t gravitar_number(const uint8_t *at) {
    uint64_t number = 0;
    for (int i = 0; i < 8; i++) number |= (uint64_t)at[i] << (8 * i);
    return number;
}

/* Writes a piece of a request behind its length, 8 + len bytes, and returns where the next one goes. */
static inline uint8_t *gravitar_put(uint8_t *at, const void *bytes, size_t len) {
    gravitar_put_number(at, len);
    for (size_t i = 0; i < len; i++) at[8 + i] = ((const uint8_t *)bytes)[i];
    return at + 8 + len;
}

/* Reads a piece of an answer's stores: sets its bytes and its length, and returns where the next one is. */
static inline const uint8_t *gravitar_next(const uint8_t *at, const uint8_t **bytes, size_t *len) {
    *len = (size_t)gravitar_number(at);
    *bytes = at + 8;
    return at + 8 + *len;
}

#ifdef __cplusplus
}
#endif

#endif
