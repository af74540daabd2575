/* A command line of gravitar, done by one call of the library. Each word that names a regular file is a file
 * of the request; the stores of the answer are written to files, its text to the standard output and its note
 * to the standard error. So tools/rows.sh takes it as a program:
 *
 *     gcc -O2 -o by-call bindings/c/command.c -Ilib lib/libgravitar.a && tools/rows.sh ./by-call
 */
#include "gravitar.h"

#include <stdio.h>
#include <stdlib.h>
#include <string.h>
#include <sys/stat.h>

/* Bytes of which it is the owner. */
struct bytes {
    uint8_t *data;
    size_t len;
};

static void *or_die(void *made) {
    if (made == NULL) {
        fputs("gravitar: no memory\n", stderr);
        exit(7);
    }
    return made;
}

/* Appends a number or a piece to a request. */
static void append_number(struct bytes *to, uint64_t number) {
    to->data = or_die(realloc(to->data, to->len + 8));
    gravitar_put_number(to->data + to->len, number);
    to->len += 8;
}
static void append(struct bytes *to, const void *piece, size_t len) {
    to->data = or_die(realloc(to->data, to->len + 8 + len));
    gravitar_put(to->data + to->len, piece, len);
    to->len += 8 + len;
}

/* Reads a file. Returns 0 where there is none that can be read whole. */
static int read_file(const char *name, struct bytes *into) {
    struct stat found;
    if (stat(name, &found) != 0 || !S_ISREG(found.st_mode)) return 0;
    FILE *file = fopen(name, "rb");
    if (file == NULL) return 0;
    into->data = or_die(malloc((size_t)found.st_size + 1));
    into->len = fread(into->data, 1, (size_t)found.st_size, file);
    int whole = into->len == (size_t)found.st_size;
    fclose(file);
    if (!whole) free(into->data);
    return whole;
}

/* The request of these words and of the files that they name. */
static struct bytes request_of(int count, char **words) {
    struct bytes request = {NULL, 0}, files = {NULL, 0}, file;
    uint64_t found = 0;
    for (int i = 0; i < count; i++) {
        if (!read_file(words[i], &file)) continue;
        append(&files, words[i], strlen(words[i]));
        append(&files, file.data, file.len);
        free(file.data);
        found++;
    }
    append_number(&request, (uint64_t)count);
    append_number(&request, found);
    for (int i = 0; i < count; i++) append(&request, words[i], strlen(words[i]));
    request.data = or_die(realloc(request.data, request.len + files.len + 1));
    if (files.len > 0) memcpy(request.data + request.len, files.data, files.len);
    request.len += files.len;
    free(files.data);
    return request;
}

/* Does a request, with as much room as its answer wants. */
static struct bytes answer_to(struct bytes request) {
    struct gravitar_report report;
    struct bytes answer = {NULL, 1 << 20};
    for (;;) {
        answer.data = or_die(realloc(answer.data, answer.len));
        uint32_t status = gravitar_command(request.data, request.len, answer.data, answer.len, &report);
        if (status == GRAVITAR_DONE) break;
        if (status == GRAVITAR_BAD_REQUEST) {
            fprintf(stderr, "by-call: no word or name of text at byte %llu\n", (unsigned long long)report.place);
            exit(2);
        }
        if (status != GRAVITAR_NO_ROOM) or_die(NULL);
        answer.len = (size_t)report.used;
    }
    answer.len = (size_t)report.used;
    return answer;
}

static int write_file(const uint8_t *name, size_t name_len, const uint8_t *bytes, size_t len) {
    char *path = or_die(calloc(name_len + 1, 1));
    memcpy(path, name, name_len);
    FILE *file = fopen(path, "wb");
    free(path);
    if (file == NULL) return 0;
    int whole = fwrite(bytes, 1, len, file) == len;
    return fclose(file) == 0 && whole;
}

int main(int argc, char **argv) {
    struct bytes request = request_of(argc - 1, argv + 1);
    struct bytes answer = answer_to(request);
    const uint8_t *text = answer.data + 32, *note = text + gravitar_number(answer.data + 8);
    const uint8_t *at = note + gravitar_number(answer.data + 16), *end = answer.data + answer.len, *name, *bytes;
    size_t name_len, len;
    int whole = fwrite(text, 1, (size_t)(note - text), stdout) == (size_t)(note - text) && fflush(stdout) == 0;
    whole = fwrite(note, 1, (size_t)(at - note), stderr) == (size_t)(at - note) && whole;
    while (at < end) {
        at = gravitar_next(gravitar_next(at, &name, &name_len), &bytes, &len);
        whole = write_file(name, name_len, bytes, len) && whole;
    }
    int status = whole ? (int)gravitar_number(answer.data) : 6;
    free(request.data);
    free(answer.data);
    return status;
}
