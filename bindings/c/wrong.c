/* A wrong library, which the tests of each binding have to refuse: bindings/wrong.sh builds it over
 * the right one, whose calls have the names true_gravitar_.. there. WRONG says what is wrong:
 *   1  the timers never reach the interrupt line
 *   2  the place of a bad tape is one further
 *   3  a board's last byte stays as it was
 *   4  the last store of a command line is left out
 *   5  the note of a command line stands in its text, and the text in its note
 *   6  the first file of a command line has the bytes of its last one
 */
#include <stdlib.h>
#include <string.h>

#include "gravitar.h"

typedef uint32_t stretch(const uint8_t *image, size_t image_len, uint8_t *board, size_t board_len,
                         const uint8_t *tape, size_t tape_len, uint64_t clock, uint32_t number,
                         uint32_t timers, uint8_t *output, size_t output_len,
                         struct gravitar_report *report);
stretch true_gravitar_advance, true_gravitar_records, true_gravitar_pcm;
uint32_t true_gravitar_command(const uint8_t *request, size_t request_len, uint8_t *answer,
                               size_t answer_len, struct gravitar_report *report);

static uint32_t run(stretch *call, const uint8_t *image, size_t image_len, uint8_t *board,
                    size_t board_len, const uint8_t *tape, size_t tape_len, uint64_t clock,
                    uint32_t number, uint32_t timers, uint8_t *output, size_t output_len,
                    struct gravitar_report *report)
{
    uint8_t last = board_len == GRAVITAR_BOARD_LEN ? board[GRAVITAR_BOARD_LEN - 1] : 0;
    uint32_t status = call(image, image_len, board, board_len, tape, tape_len, clock, number,
                           WRONG == 1 ? 0 : timers, output, output_len, report);
    if (WRONG == 2 && status == GRAVITAR_BAD_TAPE)
        report->place++;
    if (WRONG == 3 && status <= GRAVITAR_JAMMED)
        board[GRAVITAR_BOARD_LEN - 1] = last;
    return status;
}

#define STRETCH(call)                                                                              \
    uint32_t gravitar_##call(const uint8_t *image, size_t image_len, uint8_t *board,               \
                             size_t board_len, const uint8_t *tape, size_t tape_len,               \
                             uint64_t clock, uint32_t number, uint32_t timers, uint8_t *output,    \
                             size_t output_len, struct gravitar_report *report)                    \
    {                                                                                              \
        return run(true_gravitar_##call, image, image_len, board, board_len, tape, tape_len,       \
                   clock, number, timers, output, output_len, report);                             \
    }
STRETCH(advance)
STRETCH(records)
STRETCH(pcm)

/* Skips so many pieces. */
static const uint8_t *skip(const uint8_t *at, uint64_t count)
{
    const uint8_t *bytes;
    size_t len;
    while (count--)
        at = gravitar_next(at, &bytes, &len);
    return at;
}

/* A request whose first file has the bytes of its last one. */
static uint8_t *exchanged(const uint8_t *request, size_t *len)
{
    uint64_t words = gravitar_number(request), files = gravitar_number(request + 8);
    const uint8_t *name = skip(request + 16, words), *first = skip(name, 1), *rest = skip(first, 1);
    const uint8_t *last = skip(name, 2 * files - 1), *end = request + *len;
    size_t head = (size_t)(first - request), middle = (size_t)(end - last);
    size_t tail = (size_t)(end - rest);
    uint8_t *made = malloc(head + middle + tail);
    memcpy(made, request, head);
    memcpy(made + head, last, middle);
    memcpy(made + head + middle, rest, tail);
    *len = head + middle + tail;
    return made;
}

uint32_t gravitar_command(const uint8_t *request, size_t request_len, uint8_t *answer,
                          size_t answer_len, struct gravitar_report *report)
{
    uint8_t *made = NULL;
    if (WRONG == 6 && request_len >= 16 && gravitar_number(request + 8) > 1)
        request = made = exchanged(request, &request_len);
    uint32_t status = true_gravitar_command(request, request_len, answer, answer_len, report);
    free(made);
    if (status != GRAVITAR_DONE)
        return status;
    uint64_t text = gravitar_number(answer + 8), note = gravitar_number(answer + 16);
    const uint8_t *end = answer + report->used, *last = NULL;
    for (const uint8_t *at = answer + 32 + text + note; at < end; at = skip(at, 2))
        last = at;
    if (WRONG == 4 && last) {
        report->used = (uint64_t)(last - answer);
        gravitar_put_number(answer + 24, report->used - 32 - text - note);
    }
    if (WRONG == 5) {
        uint8_t *said = malloc(text + 1);
        memcpy(said, answer + 32, text);
        memmove(answer + 32, answer + 32 + text, note);
        memcpy(answer + 32 + note, said, text);
        free(said);
        gravitar_put_number(answer + 8, note);
        gravitar_put_number(answer + 16, text);
    }
    return status;
}
