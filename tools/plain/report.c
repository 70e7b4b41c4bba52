/* A plain C program that reports on a tape as `report` does: what tools/speed holds it against. */
#include <inttypes.h>
#include <string.h>

#include "tape.h"

/* Of each line; `began` is how many of its bytes were heard before the last start. */
static struct totals {
    uint64_t frames, heard, inside, reserved, began;
} totals[2];

static int take(unsigned line, uint8_t byte) {
    struct totals *t = &totals[line];
    struct receiver *r = &lines[line];
    if (byte == START) t->began = t->heard;
    t->heard++;
    if (hear(r, byte) == FRAME) {
        t->frames++;
        t->inside += t->heard - t->began;
        t->reserved += 2 + 2 * r->count;
    }
    return 1;
}

static void put_line(unsigned line) {
    const struct totals *t = &totals[line];
    int64_t difference = (int64_t)t->reserved - (int64_t)t->heard;
    printf("%c %" PRIu64 " %" PRIu64 " %" PRIu64 " %" PRIu64 " %" PRId64 "\n", line ? 'A' : 'P', t->frames, t->heard, t->inside, t->reserved, difference);
}

int main(void) {
    const char *last = read_tape(take);
    if (!last) return 1;
    if (!strcmp(last, "full")) {
        puts("refused 10 TapeTooLong");
        return 1;
    }
    unsigned first = totals[1].heard > totals[0].heard;
    puts("line frames heard inside reserved difference");
    put_line(first);
    put_line(1 - first);
    return finish(last);
}
