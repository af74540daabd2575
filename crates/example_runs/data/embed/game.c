/* A game loop. Each frame it takes the buttons, runs the board for 25,000 clocks, and has the strokes of the
 * frame as structs and the samples in a ring. Here a demo presses the buttons of the ship, no window shows the
 * strokes, and a file takes the samples.
 *     game PROCESSOR.s GENERATOR.v FRAMES LOG TAPE PCM [live]
 * writes the log, the inputs as a tape for `gravitar run`, and the samples as `gravitar pcm` has them. With
 * `live` it keeps the board's own time, else it goes as fast as it can. It ends with what a frame has cost.
 */
#define _POSIX_C_SOURCE 200809L
#include <stdatomic.h>
#include <stdio.h>
#include <stdlib.h>
#include <string.h>
#include <time.h>

#include "gravitar.h"
#include "record_line.h"

#define CLOCKS_A_SECOND 1512000
#define FRAME 25000   /* clocks */
#define PER 34        /* clocks of a sample: 44,470 samples a second */
#define RECORDS 256   /* of a frame, to begin with */
#define RING 8192     /* samples; a power of two, some 180 ms */

_Static_assert(sizeof(struct gravitar_record) == 40, "a record has 40 bytes");

/* Samples from the game loop to who plays them, on another thread too: each side changes its own count only. */
struct ring {
    uint32_t at[RING];
    atomic_size_t written, played;
};

/* Makes samples of the levels: each is the sum of both POKEYs' levels over PER clocks. */
struct mixer {
    uint32_t level[2]; /* of each POKEY, the sum of its channels */
    uint64_t clock;    /* up to which the levels are in the samples */
    uint32_t sum, clocks; /* of the sample that isn't whole yet */
};

struct game {
    uint8_t image[GRAVITAR_IMAGE_LEN], board[GRAVITAR_BOARD_LEN];
    uint64_t clock;
    int buttons;
    struct gravitar_record *records; /* of a frame */
    size_t records_len;              /* bytes that there is room for */
    size_t record_count;
    struct mixer mixer;
    struct ring ring;
};

static void fail(const char *what, unsigned status)
{
    fprintf(stderr, "game: %s: status %u\n", what, status);
    exit(1);
}

static FILE *file(const char *name, const char *mode)
{
    FILE *opened = fopen(name, mode);
    if (opened)
        return opened;
    perror(name);
    exit(1);
}

/* Port IN3 in a frame, a bit a button, 0 where it is down: 0 left, 1 right, 2 thrust. A game asks its keys. */
static int pressed(int frame)
{
    int left = frame % 240 >= 200, right = frame % 60 >= 30 && frame % 60 < 50, thrust = frame % 120 < 40;
    return 0xFF & ~(left | right << 1 | thrust << 2);
}

/* Puts a sample into the ring. Where it is full, nobody plays them, and the sample is dropped. */
static void put(struct ring *ring, uint32_t sample)
{
    size_t written = ring->written;
    if (written - ring->played == RING)
        return;
    ring->at[written % RING] = sample;
    ring->written = written + 1;
}

/* Goes on to a clock with the levels as they are. */
static void mix(struct mixer *mixer, uint64_t clock, struct ring *ring)
{
    uint32_t level = mixer->level[0] + mixer->level[1];
    while (mixer->clock < clock) {
        uint64_t run = clock - mixer->clock;
        if (run > PER - mixer->clocks)
            run = PER - mixer->clocks;
        mixer->clock += run;
        mixer->sum += level * (uint32_t)run;
        mixer->clocks += (uint32_t)run;
        if (mixer->clocks < PER)
            return;
        put(ring, mixer->sum);
        mixer->sum = mixer->clocks = 0;
    }
}

/* Shows the strokes of a frame. A game draws them; here they are counted. */
static unsigned long show(const struct game *game)
{
    unsigned long shown = 0;
    for (size_t i = 0; i < game->record_count; i++)
        shown += game->records[i].kind == GRAVITAR_STROKE;
    return shown;
}

/* Makes samples of the levels of a frame. */
static void hear(struct game *game)
{
    for (size_t i = 0; i < game->record_count; i++) {
        const struct gravitar_record *record = &game->records[i];
        const int32_t *levels = record->values;
        if (record->kind != GRAVITAR_POKEY_1 && record->kind != GRAVITAR_POKEY_2)
            continue;
        mix(&game->mixer, record->clock, &game->ring);
        game->mixer.level[record->kind == GRAVITAR_POKEY_2] = levels[0] + levels[1] + levels[2] + levels[3];
    }
    mix(&game->mixer, game->clock, &game->ring);
}

/* Makes room for so many bytes of records. */
static void make_room(struct game *game, size_t len)
{
    game->records = realloc(game->records, len);
    game->records_len = len;
    if (!game->records)
        fail("no memory", GRAVITAR_NO_MEMORY);
}

/* Runs a frame with the buttons as they are. The inputs go to the tape. */
static void run_frame(struct game *game, int buttons, FILE *tape)
{
    char inputs[64] = "";
    struct gravitar_report report;
    uint32_t status;
    if (buttons != game->buttons)
        sprintf(inputs, "%llu IN3 %02X\n", (unsigned long long)game->clock, buttons);
    fputs(inputs, tape);
    game->buttons = buttons;
    sprintf(inputs + strlen(inputs), "%llu END\n", (unsigned long long)game->clock);
    while ((status = gravitar_records(game->image, GRAVITAR_IMAGE_LEN, game->board, GRAVITAR_BOARD_LEN,
                                      (const uint8_t *)inputs, strlen(inputs), game->clock + FRAME, 0, 0,
                                      (uint8_t *)game->records, game->records_len, &report)) == GRAVITAR_NO_ROOM)
        make_room(game, report.used);
    if (status != GRAVITAR_DONE)
        fail("records", status);
    game->clock = report.clock;
    game->record_count = report.used / sizeof *game->records;
}

/* Plays all samples of the ring. A game's sound does this on its own thread, when its device asks. */
static void play(struct ring *ring, FILE *pcm)
{
    uint8_t bytes[4 * RING], *end = bytes;
    for (; ring->played < ring->written; ring->played++) {
        uint32_t sample = ring->at[ring->played % RING];
        for (int shift = 0; shift < 32; shift += 8)
            *end++ = (uint8_t)(sample >> shift);
    }
    fwrite(bytes, 1, end - bytes, pcm);
}

static void load_image(uint8_t *image, const char *processor, const char *generator)
{
    static uint8_t source[2][1 << 20], note[256];
    FILE *files[2] = {file(processor, "rb"), file(generator, "rb")};
    size_t len[2];
    struct gravitar_report report;
    for (int i = 0; i < 2; i++) {
        len[i] = fread(source[i], 1, sizeof source[i], files[i]);
        fclose(files[i]);
    }
    uint32_t status = gravitar_assemble(source[0], len[0], source[1], len[1], image, GRAVITAR_IMAGE_LEN, note,
                                        sizeof note, &report);
    if (status != GRAVITAR_DONE)
        fail("assemble", status);
}

/* Seconds of a clock. */
static double seconds(clockid_t clock)
{
    struct timespec now;
    clock_gettime(clock, &now);
    return now.tv_sec + now.tv_nsec / 1e9;
}

/* Waits for the time at which a frame begins. */
static void wait_for(double start, int frame)
{
    double left = start + (double)frame * FRAME / CLOCKS_A_SECOND - seconds(CLOCK_MONOTONIC);
    struct timespec pause = {0, (long)(left * 1e9)};
    if (left > 0)
        nanosleep(&pause, NULL);
}

int main(int argc, char **argv)
{
    if (argc < 7 || gravitar_version() != GRAVITAR_VERSION)
        return 2;
    static struct game game = {.buttons = -1};
    int frames = atoi(argv[3]), is_live = argc > 7;
    FILE *log = file(argv[4], "wb"), *tape = file(argv[5], "wb"), *pcm = file(argv[6], "wb");
    unsigned long shown = 0;
    load_image(game.image, argv[1], argv[2]);
    make_room(&game, RECORDS * sizeof *game.records);
    gravitar_power_on(game.board, sizeof game.board);
    double start = seconds(CLOCK_MONOTONIC), before = seconds(CLOCK_PROCESS_CPUTIME_ID);
    for (int frame = 0; frame < frames; frame++) {
        if (is_live)
            wait_for(start, frame);
        run_frame(&game, pressed(frame), tape);
        shown += show(&game);
        hear(&game);
        play(&game.ring, pcm);
        for (size_t i = 0; i < game.record_count; i++)
            write_record_line(&game.records[i], log);
    }
    double cost = (seconds(CLOCK_PROCESS_CPUTIME_ID) - before) / frames;
    fprintf(tape, "%llu END\n", (unsigned long long)game.clock);
    printf("%d frames, %lu strokes, %.0f microseconds a frame: %.2f %% of a processor at 60 frames a second\n",
           frames, shown, cost * 1e6, cost * 60 * 100);
    free(game.records);
    return fclose(log) | fclose(tape) | fclose(pcm);
}
