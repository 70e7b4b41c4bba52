/* The receiver of either line in plain C: the point line's, and the addressed line's master. The check comes from a table. */
#include <stdint.h>

enum { START = 0xFD, STOP = 0xFE, ESCAPE = 0xFF, LEAST_CONTENT = 4, MOST_CONTENT = 64 };
enum phase { OUTSIDE, INSIDE, PENDING };
enum event { NONE, FRAME, CHECK, SHORT, LONG, PAIR, ADDR };

struct receiver {
    int addressed;
    enum phase phase;
    unsigned count;
    uint8_t content[MOST_CONTENT];
};

static uint16_t table[256];

static void make_table(void) {
    for (unsigned i = 0; i < 256; i++) {
        uint16_t value = i;
        for (int k = 0; k < 8; k++) value = value & 1 ? (value >> 1) ^ 0x8408 : value >> 1;
        table[i] = value;
    }
}

static int is_right(const struct receiver *r) {
    if (r->addressed) {
        uint8_t sum = 0;
        for (unsigned i = 0; i + 1 < r->count; i++) sum += r->content[i];
        return sum == r->content[r->count - 1];
    }
    uint16_t value = 0xFFFF;
    for (unsigned i = 0; i < r->count; i++) value = (value >> 8) ^ table[(value ^ r->content[i]) & 0xFF];
    return value == 0xF0B8;
}

static enum event tell(struct receiver *r, enum event event) {
    r->phase = OUTSIDE;
    return event;
}

static enum event keep(struct receiver *r, uint8_t byte) {
    if (r->count == MOST_CONTENT) return tell(r, LONG);
    r->content[r->count++] = byte;
    r->phase = INSIDE;
    return NONE;
}

/* After FRAME the content, check included, stands in the receiver until the next byte is heard. */
static enum event hear(struct receiver *r, uint8_t byte) {
    if (byte == START) {
        r->phase = INSIDE;
        r->count = 0;
        return NONE;
    }
    if (r->phase == OUTSIDE) return NONE;
    if (r->phase == PENDING) return byte <= 2 ? keep(r, ESCAPE - byte) : tell(r, PAIR);
    if (byte == STOP) return tell(r, r->count < LEAST_CONTENT ? SHORT : is_right(r) ? FRAME : CHECK);
    if (r->addressed && r->count == 0 && byte != 0) return tell(r, ADDR);
    if (byte == ESCAPE) {
        r->phase = PENDING;
        return NONE;
    }
    return keep(r, byte);
}
