/* Compares the records of a run with the lines of its log, and measures what both cost.
 *     records PROCESSOR.s GENERATOR.v TAPE CLOCK
 * runs the board a frame of 25,000 clocks at a time, once by each call. Each record is written as a line, and the
 * text has to be what gravitar_advance gives. Samples of 65,535 clocks show what the run itself costs.
 */
#define _POSIX_C_SOURCE 200809L
#include <stdio.h>
#include <stdlib.h>
#include <string.h>
#include <time.h>

#include "gravitar.h"
#include "record_line.h"

#define FRAME 25000

_Static_assert(sizeof(struct gravitar_record) == 40, "a record has 40 bytes");

struct bytes {
    uint8_t *at;
    size_t len;
};

/* gravitar_advance, gravitar_records and gravitar_pcm. */
typedef uint32_t stretch(const uint8_t *, size_t, uint8_t *, size_t, const uint8_t *, size_t, uint64_t, uint32_t,
                         uint32_t, uint8_t *, size_t, struct gravitar_report *);

/* A run by one call: the board at the end, all that it gave, and the seconds of a processor that it took. */
struct run {
    uint8_t board[GRAVITAR_BOARD_LEN];
    struct bytes output;
    double seconds;
};

static void fail(const char *what, unsigned status)
{
    fprintf(stderr, "records: %s: status %u\n", what, status);
    exit(1);
}

/* A whole file. */
static struct bytes load(const char *name)
{
    struct bytes file = {malloc(1 << 20), 0};
    FILE *in = fopen(name, "rb");
    if (!in || !file.at) {
        perror(name);
        exit(1);
    }
    file.len = fread(file.at, 1, 1 << 20, in);
    fclose(in);
    return file;
}

static double seconds(void)
{
    struct timespec now;
    clock_gettime(CLOCK_THREAD_CPUTIME_ID, &now);
    return now.tv_sec + now.tv_nsec / 1e9;
}

/* Gives a buffer room for so many bytes. */
static void grow(struct bytes *buffer, size_t len)
{
    buffer->at = realloc(buffer->at, len);
    buffer->len = len;
    if (!buffer->at)
        fail("no memory", GRAVITAR_NO_MEMORY);
}

/* Runs the board from power-on to a clock by a call, which takes `number`. */
static struct run run(stretch *call, uint32_t number, const uint8_t *image, struct bytes tape, uint64_t last)
{
    struct run it = {.seconds = 0};
    struct bytes frame = {NULL, 0};
    FILE *output = open_memstream((char **)&it.output.at, &it.output.len);
    grow(&frame, 1 << 16);
    struct gravitar_report report;
    uint64_t clock = 0;
    if (!output)
        fail("no memory", GRAVITAR_NO_MEMORY);
    gravitar_power_on(it.board, sizeof it.board);
    while (clock < last) {
        uint64_t next = last - clock < FRAME ? last : clock + FRAME;
        double before = seconds();
        uint32_t status = call(image, GRAVITAR_IMAGE_LEN, it.board, sizeof it.board, tape.at, tape.len, next,
                               number, 0, frame.at, frame.len, &report);
        if (status == GRAVITAR_NO_ROOM) {
            grow(&frame, report.used);
            continue;
        }
        if (status != GRAVITAR_DONE)
            fail("a call", status);
        it.seconds += seconds() - before;
        fwrite(frame.at, 1, report.used, output);
        clock = report.clock;
    }
    fclose(output);
    free(frame.at);
    return it;
}

/* The lines of records. */
static struct bytes lines(struct bytes records)
{
    struct bytes text;
    FILE *out = open_memstream((char **)&text.at, &text.len);
    const struct gravitar_record *record = (const void *)records.at;
    for (size_t i = 0; i < records.len / sizeof *record; i++)
        write_record_line(record + i, out);
    fclose(out);
    return text;
}

int main(int argc, char **argv)
{
    static uint8_t image[GRAVITAR_IMAGE_LEN], note[256];
    struct gravitar_report report;
    if (argc != 5)
        return 2;
    struct bytes processor = load(argv[1]), generator = load(argv[2]), tape = load(argv[3]);
    uint64_t last = strtoull(argv[4], NULL, 10);
    uint32_t status = gravitar_assemble(processor.at, processor.len, generator.at, generator.len, image, sizeof image,
                                        note, sizeof note, &report);
    if (status != GRAVITAR_DONE)
        fail("the sources", status);
    struct run text = run(gravitar_advance, 1, image, tape, last), array = run(gravitar_records, 1, image, tape, last);
    struct run sound = run(gravitar_pcm, 65535, image, tape, last);
    struct bytes written = lines(array.output);
    size_t count = array.output.len / sizeof(struct gravitar_record);
    if (array.output.len % sizeof(struct gravitar_record) || written.len != text.output.len ||
        memcmp(written.at, text.output.at, written.len) || memcmp(text.board, array.board, sizeof text.board))
        fail("the records are not the lines", 0);
    printf("%zu records are the lines of the log; %.1f ms by gravitar_records, %.1f by gravitar_advance, "
           "%.1f by gravitar_pcm\n", count, array.seconds * 1e3, text.seconds * 1e3, sound.seconds * 1e3);
    free(text.output.at), free(array.output.at), free(sound.output.at), free(written.at);
    free(processor.at), free(generator.at), free(tape.at);
    return 0;
}
