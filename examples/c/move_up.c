/* A day's file moved up to form 2: every sheet of standard input, in order, to standard output, whichever form each has. Where a sheet is
 * refused nothing is written, and its number and the byte at which it ends are told. */
#include "fummidrake.h"

#include <stdio.h>

/* The most bytes of a day's file, and the fewest of a sheet: one of a single U, in form 1. */
enum { MOST_BYTES = 65536, LEAST_BYTES = 16 + 28, MOST_SHEETS = MOST_BYTES / LEAST_BYTES };

static int refused(int number, size_t end) {
    fprintf(stderr, "refused with %d: the sheet that ends at byte %zu\n", number, end);
    return 1;
}

int main(void) {
    static uint8_t file[MOST_BYTES + 1], up[MOST_BYTES];
    size_t ends[MOST_SHEETS], sheets = 0, bytes = 0;
    size_t size = fread(file, 1, sizeof file, stdin);
    if (size > MOST_BYTES) {
        fprintf(stderr, "a day's file has at most %d bytes\n", MOST_BYTES);
        return 1;
    }

    /* From the last sheet to the first: where each ends. The one before it ends where it starts. */
    for (size_t end = size; end > 0; sheets++) {
        fummidrake_reading reading = fummidrake_read_before(file, size, end);
        if (reading.number != 0)
            return refused(reading.number, end);
        ends[sheets] = end;
        end = reading.start;
    }

    /* From the first to the last: each behind the one before. */
    while (sheets > 0) {
        size_t end = ends[--sheets];
        fummidrake_moved moved = fummidrake_move_last(file, end, 2, up, sizeof up, bytes);
        if (moved.number != 0)
            return refused(moved.number, end);
        bytes += moved.bytes;
    }
    return fwrite(up, 1, bytes, stdout) == bytes ? 0 : 1;
}
