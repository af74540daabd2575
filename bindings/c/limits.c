/* Measures what a call takes of its caller's thread and process, and looks whether it keeps to what it was given.
 *     limits PROCESSOR.s GENERATOR.v TAPE
 * Each call is made on a thread of its own, whose stack was painted. What isn't painted any more, less what an
 * empty thread takes, is the call's. Each of its buffers ends where no page is, or begins there, and those that it
 * only reads can't be written. Then each of its allocations is refused in turn.
 * It is linked with -Wl,--wrap=malloc,--wrap=realloc,--wrap=free.
 */
#define _GNU_SOURCE
#include <malloc.h>
#include <pthread.h>
#include <stdio.h>
#include <stdlib.h>
#include <string.h>
#include <sys/mman.h>

#include "gravitar.h"

#define STACK (1 << 20)
#define PAINT 0xA5
#define PAGE 4096
#define TEXT_LEN 300000

/* The allocations of the library: bytes in use and at most, how many were asked for, and which is refused. */
static struct {
    size_t used, peak;
    long asked, refused;
} heap;

void *__real_malloc(size_t);
void *__real_realloc(void *, size_t);
void __real_free(void *);

static size_t size_of(void *at)
{
    return at ? malloc_usable_size(at) : 0;
}

static void *count(void *at)
{
    heap.used += size_of(at);
    if (heap.peak < heap.used)
        heap.peak = heap.used;
    return at;
}

void *__wrap_malloc(size_t size)
{
    return ++heap.asked == heap.refused ? NULL : count(__real_malloc(size));
}

/* While it moves, both are in use. */
void *__wrap_realloc(void *at, size_t size)
{
    size_t before = size_of(at);
    if (++heap.asked == heap.refused)
        return NULL;
    void *after = count(__real_realloc(at, size));
    if (after)
        heap.used -= before;
    return after;
}

void __wrap_free(void *at)
{
    heap.used -= size_of(at);
    __real_free(at);
}

static void fail(const char *call, const char *what)
{
    fprintf(stderr, "limits: %s: %s\n", call, what);
    exit(1);
}

/* Bytes between two pages that can't be touched, at the end of their own pages or at the beginning. */
struct fenced {
    uint8_t *at, *pages;
    size_t len, pages_len;
};

static struct fenced fence(size_t len, int is_at_end)
{
    struct fenced it = {.len = len, .pages_len = (len + PAGE - 1) / PAGE * PAGE + PAGE};
    uint8_t *map = mmap(NULL, it.pages_len + 2 * PAGE, PROT_NONE, MAP_PRIVATE | MAP_ANONYMOUS, -1, 0);
    it.pages = map + PAGE;
    if (map == MAP_FAILED || mprotect(it.pages, it.pages_len, PROT_READ | PROT_WRITE))
        fail("mmap", "no memory");
    it.at = is_at_end ? it.pages + it.pages_len - len : it.pages;
    return it;
}

/* Bytes of which all that stands around them is painted, too. */
static struct fenced given(const uint8_t *bytes, size_t len, int is_at_end)
{
    struct fenced it = fence(len, is_at_end);
    memset(it.pages, PAINT, it.pages_len);
    if (len)
        memcpy(it.at, bytes, len);
    return it;
}

static void unfence(const char *call, struct fenced it)
{
    for (uint8_t *at = it.pages; at < it.pages + it.pages_len; at++)
        if ((at < it.at || at >= it.at + it.len) && *at != PAINT)
            fail(call, "wrote outside a buffer");
    munmap(it.pages - PAGE, it.pages_len + 2 * PAGE);
}

enum kind { EMPTY, POWER_ON, ADVANCE, RECORDS, PCM, ASSEMBLE, COMMAND };

/* A call, and what it is to answer. */
struct call {
    const char *name;
    enum kind kind;
    uint32_t answer;
    const uint8_t *first, *second; /* image and tape, both sources, or a request and nothing */
    size_t first_len, second_len;
    uint64_t clock;
    size_t output_len;
    struct fenced in[2], board, output, report;
    uint32_t status;
};

static void *run(void *given)
{
    struct call *it = given;
    struct fenced *in = it->in;
    struct gravitar_report *report = (void *)it->report.at;
    switch (it->kind) {
    case EMPTY:
        break;
    case POWER_ON:
        it->status = gravitar_power_on(it->board.at, it->board.len);
        break;
    case ADVANCE:
        it->status = gravitar_advance(in[0].at, in[0].len, it->board.at, it->board.len, in[1].at, in[1].len,
                                      it->clock, 0, 1, it->output.at, it->output.len, report);
        break;
    case RECORDS:
        it->status = gravitar_records(in[0].at, in[0].len, it->board.at, it->board.len, in[1].at, in[1].len,
                                      it->clock, 0, 1, it->output.at, it->output.len, report);
        break;
    case PCM:
        it->status = gravitar_pcm(in[0].at, in[0].len, it->board.at, it->board.len, in[1].at, in[1].len,
                                  it->clock, 34, 1, it->output.at, it->output.len, report);
        break;
    case ASSEMBLE:
        it->status = gravitar_assemble(in[0].at, in[0].len, in[1].at, in[1].len, it->output.at, it->output.len,
                                       it->board.at, it->board.len, report);
        break;
    case COMMAND:
        it->status =
            gravitar_command(in[0].at, in[0].len, it->output.at, it->output.len, report);
        break;
    }
    return NULL;
}

/* Makes the call on a painted stack, and answers how much of it isn't painted any more. */
static size_t paint(struct call *it)
{
    pthread_attr_t attributes;
    pthread_t thread;
    uint8_t *stack = mmap(NULL, STACK, PROT_READ | PROT_WRITE, MAP_PRIVATE | MAP_ANONYMOUS, -1, 0);
    size_t left = 0;
    if (stack == MAP_FAILED)
        fail(it->name, "no memory");
    memset(stack, PAINT, STACK);
    pthread_attr_init(&attributes);
    pthread_attr_setstack(&attributes, stack, STACK);
    if (pthread_create(&thread, &attributes, run, it) || pthread_join(thread, NULL))
        fail(it->name, "no thread");
    while (left < STACK && stack[left] == PAINT)
        left++;
    munmap(stack, STACK);
    return STACK - left;
}

/* Makes the call over fenced buffers, with one of its allocations refused where that isn't 0. */
static size_t make(struct call *it, int is_at_end, long refused)
{
    uint8_t before[GRAVITAR_BOARD_LEN];
    struct gravitar_report none = {7, 7, 7};
    memset(before, PAINT, sizeof before);
    if (it->kind != POWER_ON)
        gravitar_power_on(before, sizeof before);
    it->in[0] = given(it->first, it->first_len, is_at_end);
    it->in[1] = given(it->second, it->second_len, is_at_end);
    for (int i = 0; i < 2; i++)
        mprotect(it->in[i].pages, it->in[i].pages_len, PROT_READ);
    it->board = given(before, sizeof before, is_at_end);
    it->output = fence(it->output_len, is_at_end);
    memset(it->output.pages, PAINT, it->output.pages_len);
    it->report = given((uint8_t *)&none, sizeof none, is_at_end);
    heap.used = heap.peak = heap.asked = 0;
    heap.refused = refused;
    size_t stack = paint(it);
    heap.refused = 0;
    if (heap.used)
        fail(it->name, "left memory allocated");
    if (it->status > GRAVITAR_JAMMED && it->kind != ASSEMBLE && memcmp(before, it->board.at, sizeof before))
        fail(it->name, "changed the board of a call that did nothing");
    unfence(it->name, it->in[0]);
    unfence(it->name, it->in[1]);
    unfence(it->name, it->board);
    unfence(it->name, it->output);
    unfence(it->name, it->report);
    return stack;
}

/* Measures a call, and prints what it took. */
static void measure(struct call it)
{
    struct call empty = {.name = "an empty thread", .kind = EMPTY};
    size_t stack = make(&it, 0, 0) - make(&empty, 1, 0), second = make(&it, 1, 0) - make(&empty, 1, 0);
    if (it.status != it.answer)
        fail(it.name, "answered another status");
    make(&it, 1, 0);
    size_t peak = heap.peak;
    long asked = heap.asked;
    for (long refused = 1; refused <= asked; refused++) {
        make(&it, 1, refused);
        if (it.status != GRAVITAR_NO_MEMORY)
            fail(it.name, "did without memory that it asked for");
    }
    printf("%-54s %7zu bytes of stack, %8zu of memory at most in %ld allocations\n", it.name,
           second > stack ? second : stack, peak, asked);
}

/* A whole file. */
static uint8_t *load(const char *name, size_t *len)
{
    uint8_t *at = __real_malloc(1 << 20);
    FILE *in = fopen(name, "rb");
    if (!in || !at) {
        perror(name);
        exit(1);
    }
    *len = fread(at, 1, 1 << 20, in);
    fclose(in);
    return at;
}

/* The request of a command line over an image, a tape, a script, a board and both sources. */
static size_t request_of(uint8_t *request, const char *line, const uint8_t *const files[],
                         const size_t *lens)
{
    static const char *const names[] = {"i", "t", "d", "b", "c", "v"};
    uint8_t *at = request + 16;
    uint64_t words = 0;
    for (; *line; words++) {
        size_t len = strcspn(line, " ");
        at = gravitar_put(at, line, len);
        line += len + (line[len] == ' ');
    }
    gravitar_put_number(request, words);
    gravitar_put_number(request + 8, 6);
    for (int i = 0; i < 6; i++)
        at = gravitar_put(gravitar_put(at, names[i], 1), files[i], lens[i]);
    return (size_t)(at - request);
}

int main(int argc, char **argv)
{
    static uint8_t image[GRAVITAR_IMAGE_LEN], jam[GRAVITAR_IMAGE_LEN], note[256];
    struct gravitar_report report;
    size_t len[3];
    if (argc != 4)
        return 2;
    uint8_t *source[3] = {load(argv[1], len), load(argv[2], len + 1), load(argv[3], len + 2)};
    if (gravitar_assemble(source[0], len[0], source[1], len[1], image, sizeof image, note, sizeof note, &report))
        fail("gravitar_assemble", "refused the sources");
    memset(jam, 0x92, sizeof jam); /* an undocumented opcode, at 9292 */
    struct call advance = {"gravitar_advance", ADVANCE, GRAVITAR_DONE, image, source[2], sizeof image, len[2],
                           .clock = 1000000, .output_len = TEXT_LEN};
    struct call assemble = {"gravitar_assemble", ASSEMBLE, GRAVITAR_DONE, source[0], source[1], len[0], len[1],
                            .output_len = GRAVITAR_IMAGE_LEN};
    struct call it = {.name = "gravitar_power_on", .kind = POWER_ON};
    measure(it);
    measure(advance);
    it = advance, it.name = "  NO_ROOM", it.answer = GRAVITAR_NO_ROOM, it.output_len = 0;
    measure(it);
    it = advance, it.name = "  JAMMED", it.answer = GRAVITAR_JAMMED, it.first = jam;
    measure(it);
    it = advance, it.name = "  BAD_IMAGE", it.answer = GRAVITAR_BAD_IMAGE, it.first_len--;
    measure(it);
    it = advance, it.name = "  BAD_TAPE", it.answer = GRAVITAR_BAD_TAPE, it.second_len = 0;
    measure(it);
    struct call records = advance;
    records.name = "gravitar_records", records.kind = RECORDS;
    measure(records);
    it = records, it.name = "  NO_ROOM", it.answer = GRAVITAR_NO_ROOM, it.output_len = 0;
    measure(it);
    it = advance, it.name = "gravitar_pcm", it.kind = PCM;
    measure(it);
    measure(assemble);
    it = assemble, it.name = "  NO_ROOM", it.answer = GRAVITAR_NO_ROOM, it.output_len = 0;
    measure(it);
    it = assemble, it.name = "  BAD_PROCESSOR_SOURCE", it.answer = GRAVITAR_BAD_PROCESSOR_SOURCE, it.first = (uint8_t *)"?", it.first_len = 1;
    measure(it);
    it = assemble, it.name = "  BAD_GENERATOR_SOURCE", it.answer = GRAVITAR_BAD_GENERATOR_SOURCE, it.second = (uint8_t *)"?", it.second_len = 1;
    measure(it);
    static uint8_t request[1 << 20], board[GRAVITAR_BOARD_LEN];
    static const char script[] = "until 20000\nregs\ndev\ndis 9000 9\n";
    const uint8_t *files[] = {image, source[2], (const uint8_t *)script, board, source[0], source[1]};
    size_t lens[] = {sizeof image, len[2], sizeof script - 1, sizeof board, len[0], len[1]};
    gravitar_power_on(board, sizeof board);
    static const char *const lines[] = {
        "run i t --until 20000 --save b --cuts 5,7000 --state b", "asm c v i", "debug i t d", "show b",
        "pcm i t 34 --until 20000", "frames i t --until 20000", "seek i t 20000,3,9000",
        "profile i t --until 20000", "run i", "run i x", "run t t",
    };
    for (size_t i = 0; i < sizeof lines / sizeof *lines; i++) {
        it = (struct call){lines[i], COMMAND, GRAVITAR_DONE, request, request,
                           .output_len = TEXT_LEN};
        it.first_len = request_of(request, lines[i], files, lens);
        measure(it);
    }
    it.name = "  NO_ROOM", it.answer = GRAVITAR_NO_ROOM, it.output_len = 0;
    measure(it);
    it.name = "  BAD_REQUEST", it.answer = GRAVITAR_BAD_REQUEST, it.first_len--;
    measure(it);
    for (int i = 0; i < 3; i++)
        __real_free(source[i]);
    return 0;
}
