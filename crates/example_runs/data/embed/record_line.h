/* A record as the line that the log has of it. docs/FORMATS.md has the lines. */
#ifndef RECORD_LINE_H
#define RECORD_LINE_H

#include <inttypes.h>
#include <stdio.h>

#include "gravitar.h"

/* Writes the line of a record, as gravitar_advance gives it. */
static inline void write_record_line(const struct gravitar_record *record, FILE *out)
{
    const int32_t *at = record->values;
    uint64_t clock = record->clock;
    switch (record->kind) {
    case GRAVITAR_STROKE:
        fprintf(out, "S %" PRIu64 " %d %d %d %d %d %d\n", clock, at[0], at[1], at[2], at[3], at[4], at[5]);
        break;
    case GRAVITAR_POKEY_1:
    case GRAVITAR_POKEY_2:
        fprintf(out, "%c %" PRIu64 " %d %d %d %d\n", record->kind == GRAVITAR_POKEY_1 ? 'A' : 'B', clock, at[0],
                at[1], at[2], at[3]);
        break;
    case GRAVITAR_LATCH:
        fprintf(out, "L %" PRIu64 " %02X\n", clock, (unsigned)at[0]);
        break;
    case GRAVITAR_WATCHDOG:
        fprintf(out, "W %" PRIu64 "\n", clock);
        break;
    }
}

#endif
