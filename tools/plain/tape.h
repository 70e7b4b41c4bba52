/* A tape on standard input in plain C: a receiver for each of its two lines, and the way through it record by record. */
#include <stdio.h>

#include "receiver.h"

static struct receiver lines[2] = {{.addressed = 0}, {.addressed = 1}};

/* How many whole records were taken. */
static uint32_t records;

/* Hands the line and the byte of each record to `take`, which answers 0 where it failed. It returns how the tape ended, as a listing's last row says it, or NULL
   where `take` or a read failed. */
static const char *read_tape(int (*take)(unsigned line, uint8_t byte)) {
    static uint8_t block[1 << 16];
    size_t count;
    make_table();
    while ((count = fread(block, 1, sizeof block, stdin)) > 0) {
        for (size_t i = 0; i < count; i += 2) {
            if (records == UINT32_MAX) return "full";
            if (block[i] != 1 && block[i] != 2) return "bad";
            /* fread fills the block unless the tape ends there or cannot be read further */
            if (i + 1 == count) return ferror(stdin) ? NULL : "cut";
            if (!take(block[i] - 1, block[i + 1])) return NULL;
            records++;
        }
    }
    return ferror(stdin) ? NULL : "end";
}

/* Writes the last row; the program's exit status. */
static int finish(const char *last) {
    printf("%s %lu\n", last, (unsigned long)records);
    return fflush(stdout) || ferror(stdout);
}
