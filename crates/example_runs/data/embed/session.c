/* Does a script of the debugger over a board, by one call of gravitar_command.
 *     session PROCESSOR.s GENERATOR.v TAPE SCRIPT
 * writes what `gravitar debug` writes, and ends with its status. No file is read but these four.
 */
#include <stdio.h>
#include <stdlib.h>

#include "gravitar.h"

#define FILE_LEN (1 << 20)
#define ANSWER_LEN (1 << 20)

/* Reads a file into its place. */
static size_t load(const char *name, uint8_t *at)
{
    FILE *in = fopen(name, "rb");
    if (!in) {
        perror(name);
        exit(1);
    }
    size_t len = fread(at, 1, FILE_LEN, in);
    fclose(in);
    return len;
}

int main(int argc, char **argv)
{
    static uint8_t files[4][FILE_LEN], image[GRAVITAR_IMAGE_LEN], note[256];
    static uint8_t request[4 * FILE_LEN], answer[ANSWER_LEN];
    struct gravitar_report report;
    size_t len[4];
    if (argc != 5)
        return 2;
    for (int i = 0; i < 4; i++)
        len[i] = load(argv[i + 1], files[i]);
    if (gravitar_assemble(files[0], len[0], files[1], len[1], image, sizeof image, note,
                          sizeof note, &report) != GRAVITAR_DONE) {
        fprintf(stderr, "%.*s\n", (int)report.used, (const char *)note);
        return 1;
    }

    /* Four words and three files, each with a name of one letter. */
    gravitar_put_number(request, 4);
    gravitar_put_number(request + 8, 3);
    uint8_t *at = request + 16;
    at = gravitar_put(at, "debug", 5);
    at = gravitar_put(at, "i", 1);
    at = gravitar_put(at, "t", 1);
    at = gravitar_put(at, "s", 1);
    at = gravitar_put(gravitar_put(at, "i", 1), image, sizeof image);
    at = gravitar_put(gravitar_put(at, "t", 1), files[2], len[2]);
    at = gravitar_put(gravitar_put(at, "s", 1), files[3], len[3]);

    if (gravitar_command(request, (size_t)(at - request), answer, sizeof answer, &report) !=
        GRAVITAR_DONE)
        return 1;
    const uint8_t *text = answer + 32, *said = text + gravitar_number(answer + 8);
    fwrite(text, 1, (size_t)(said - text), stdout);
    fwrite(said, 1, gravitar_number(answer + 16), stderr);
    return (int)gravitar_number(answer);
}
