/* A plain C program that lists a tape as `listing` does: what tools/speed holds it against. */
#include <string.h>

#include "tape.h"

enum { MOST_LINE = 256 };

static const char *const names[] = {"NONE", "FRAME", "CHECK", "SHORT", "LONG", "PAIR", "ADDR"};

static char text[1 << 16];
static size_t used;

static int flush(void) {
    int is_written = fwrite(text, 1, used, stdout) == used;
    used = 0;
    return is_written;
}

static char *put_content(char *out, const uint8_t *content, unsigned count) {
    static const char digits[] = "0123456789ABCDEF";
    for (unsigned i = 0; i < count; i++) {
        if (i) *out++ = '.';
        *out++ = digits[content[i] >> 4];
        *out++ = digits[content[i] & 15];
    }
    return out;
}

static int put_line(uint32_t number, const struct receiver *r, enum event event) {
    if (used + MOST_LINE > sizeof text && !flush()) return 0;
    char *out = text + used;
    char digits[10];
    int count = 0;
    do digits[count++] = '0' + number % 10; while (number /= 10);
    while (count) *out++ = digits[--count];
    *out++ = ' ';
    *out++ = r->addressed ? 'A' : 'P';
    *out++ = ' ';
    size_t length = strlen(names[event]);
    memcpy(out, names[event], length);
    out += length;
    *out++ = ' ';
    if (event == FRAME) out = put_content(out, r->content, r->count - (r->addressed ? 1 : 2));
    else *out++ = '-';
    *out++ = '\n';
    used = out - text;
    return 1;
}

static int take(unsigned line, uint8_t byte) {
    struct receiver *r = &lines[line];
    enum event event = hear(r, byte);
    return !event || put_line(records, r, event);
}

int main(void) {
    fputs("record line event content\n", stdout);
    const char *last = read_tape(take);
    if (!last || !flush()) return 1;
    return finish(last);
}
