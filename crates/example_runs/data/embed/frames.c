/* Assembles two sources, and runs their board a frame at a time: its log goes to the output, and what each
 * frame drew to the standard error.
 *     frames PROCESSOR.s GENERATOR.v TAPE CLOCK
 */
#include <stdio.h>
#include <stdlib.h>
#include <string.h>

#include "gravitar.h"

#define FRAME 25000 /* clocks: some 60 frames a second of a board of 1.512 MHz */

struct bytes {
    uint8_t *at;
    size_t len;
};

/* Ends with the words of a refusal, of which the buffer has as many as there was room for. */
static void fail(const char *what, uint32_t status, struct bytes words, const struct gravitar_report *report)
{
    size_t len = report->used < words.len ? report->used : words.len;
    fprintf(stderr, "%s: status %u, at %llu: %.*s\n", what, status, (unsigned long long)report->place,
            (int)len, (const char *)words.at);
    exit(1);
}

/* A whole file. */
static struct bytes load(const char *name)
{
    struct bytes file = {malloc(1 << 20), 0};
    FILE *in = fopen(name, "rb");
    if (!in || !file.at) {
        perror(name);
        exit(1);
    }
    file.len = fread(file.at, 1, 1 << 20, in);
    fclose(in);
    return file;
}

/* The image of two sources. */
static uint8_t *assemble(const char *processor, const char *generator)
{
    static uint8_t image[GRAVITAR_IMAGE_LEN], note[256];
    struct bytes first = load(processor), second = load(generator);
    struct gravitar_report report;
    uint32_t status = gravitar_assemble(first.at, first.len, second.at, second.len, image, sizeof image,
                                        note, sizeof note, &report);
    if (status != GRAVITAR_DONE)
        fail(status == GRAVITAR_BAD_GENERATOR_SOURCE ? generator : processor, status, (struct bytes){note, sizeof note}, &report);
    free(first.at);
    free(second.at);
    return image;
}

/* How many lines of a log are strokes. */
static int strokes(const uint8_t *text, size_t len)
{
    int count = 0;
    for (size_t i = 0; i < len; i++)
        count += text[i] == 'S' && (i == 0 || text[i - 1] == '\n');
    return count;
}

/* Runs the board to a clock, with as much room for the log as it takes. */
static uint32_t advance(const uint8_t *image, uint8_t *board, struct bytes tape, uint64_t clock,
                        struct bytes *text, struct gravitar_report *report)
{
    for (;;) {
        uint32_t status = gravitar_advance(image, GRAVITAR_IMAGE_LEN, board, GRAVITAR_BOARD_LEN, tape.at,
                                           tape.len, clock, 1, 0, text->at, text->len, report);
        if (status != GRAVITAR_NO_ROOM)
            return status;
        text->len = report->used;
        text->at = realloc(text->at, text->len);
        if (!text->at)
            exit(1);
    }
}

int main(int argc, char **argv)
{
    if (argc != 5 || gravitar_version() != GRAVITAR_VERSION)
        return 2;
    const uint8_t *image = assemble(argv[1], argv[2]);
    struct bytes tape = load(argv[3]), text = {malloc(65536), 65536};
    uint64_t last = strtoull(argv[4], NULL, 10), clock = 0;
    uint8_t board[GRAVITAR_BOARD_LEN];
    gravitar_power_on(board, sizeof board);
    for (int frame = 0; clock < last; frame++) {
        struct gravitar_report report;
        uint64_t next = last - clock < FRAME ? last : clock + FRAME;
        uint32_t status = advance(image, board, tape, next, &text, &report);
        if (status != GRAVITAR_DONE && status != GRAVITAR_JAMMED)
            fail(argv[3], status, text, &report);
        fwrite(text.at, 1, report.used, stdout);
        fprintf(stderr, "frame %d: %d strokes, to clock %llu\n", frame, strokes(text.at, report.used),
                (unsigned long long)report.clock);
        if (status == GRAVITAR_JAMMED)
            break;
        clock = report.clock;
    }
    free(tape.at);
    free(text.at);
    return 0;
}
