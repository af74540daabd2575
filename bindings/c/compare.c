/* Runs an image with the timers on, by each call that runs, for a script that holds what it writes
 * against what the program writes with --timers.
 *     compare IMAGE TAPE BAD-TAPE CLOCK
 * writes compare.log (gravitar_advance), compare.lines (gravitar_records, each record as its line),
 * compare.pcm (34 clocks a sample) and compare.board, each of several stretches, and prints what is
 * said of the bad tape.
 */
#include <stdio.h>
#include <stdlib.h>
#include <string.h>

#include "gravitar.h"
#include "record_line.h"

#define OUTPUT_LEN (1 << 20)

static uint8_t image[GRAVITAR_IMAGE_LEN + 1], tape[1 << 16], bad[1 << 16];
static union {
    uint8_t bytes[OUTPUT_LEN];
    struct gravitar_record records[OUTPUT_LEN / sizeof(struct gravitar_record)];
} output;

static void fail(const char *what)
{
    fprintf(stderr, "compare: %s\n", what);
    exit(1);
}

static size_t load(const char *name, uint8_t *at, size_t len)
{
    FILE *in = fopen(name, "rb");
    if (!in)
        fail(name);
    len = fread(at, 1, len, in);
    fclose(in);
    return len;
}

static FILE *create(const char *name)
{
    FILE *out = fopen(name, "wb");
    if (!out)
        fail(name);
    return out;
}

int main(int argc, char **argv)
{
    uint8_t board[3][GRAVITAR_BOARD_LEN];
    struct gravitar_report report;
    if (argc != 5)
        return 2;
    size_t image_len = load(argv[1], image, sizeof image);
    size_t tape_len = load(argv[2], tape, sizeof tape);
    size_t bad_len = load(argv[3], bad, sizeof bad);
    uint64_t last = strtoull(argv[4], NULL, 10), clock = 0;
    FILE *log = create("compare.log"), *lines = create("compare.lines");
    FILE *pcm = create("compare.pcm");
    for (int i = 0; i < 3; i++)
        if (gravitar_power_on(board[i], sizeof board[i]) != GRAVITAR_DONE)
            fail("gravitar_power_on");
    for (int part = 1; part <= 3; part++) {
        /* Each stretch but the last ends inside an instruction, or where it happens to end. */
        int boundary = part == 3;
        clock = last / 3 * (uint64_t)part + (boundary ? last % 3 : 0);
        if (gravitar_advance(image, image_len, board[0], sizeof board[0], tape, tape_len, clock,
                             boundary, 1, output.bytes, OUTPUT_LEN, &report) != GRAVITAR_DONE)
            fail("gravitar_advance");
        fwrite(output.bytes, 1, report.used, log);
        if (gravitar_records(image, image_len, board[1], sizeof board[1], tape, tape_len, clock,
                             boundary, 1, output.bytes, OUTPUT_LEN, &report) != GRAVITAR_DONE)
            fail("gravitar_records");
        for (size_t i = 0; i < report.used / sizeof *output.records; i++)
            write_record_line(&output.records[i], lines);
        if (memcmp(board[0], board[1], sizeof board[0]) != 0)
            fail("gravitar_records leaves another board than gravitar_advance");
    }
    if (gravitar_pcm(image, image_len, board[2], sizeof board[2], tape, tape_len, last, 34, 1,
                     output.bytes, OUTPUT_LEN, &report) != GRAVITAR_DONE)
        fail("gravitar_pcm");
    fwrite(output.bytes, 1, report.used, pcm);
    if (memcmp(board[0], board[2], sizeof board[0]) != 0)
        fail("gravitar_pcm leaves another board than gravitar_advance");
    FILE *saved = create("compare.board");
    fwrite(board[0], 1, sizeof board[0], saved);
    if (fclose(saved) || fclose(log) || fclose(lines) || fclose(pcm))
        fail("couldn't write");
    if (gravitar_advance(image, image_len, board[0], sizeof board[0], bad, bad_len, 1, 0, 1,
                         output.bytes, OUTPUT_LEN, &report) != GRAVITAR_BAD_TAPE)
        fail("a bad tape isn't refused");
    printf("%llu: %.*s\n", (unsigned long long)report.place, (int)report.used,
           (const char *)output.bytes);
    return 0;
}
