/* Reads pieces, makes their letters upper case, and writes them on. */
#include "canon.h"

STREAM_OF(u8)

static unsigned char piece[65536];
static uint32_t in, out, set, have, sent, reading, writing, ended;

/* What a read or its event tells. An end that has nothing under way is told too that the other is gone. */
static void got(uint32_t code) {
    if (COUNT(code) > 0) {
        have = COUNT(code);
        sent = 0;
        for (uint32_t k = 0; k < have; k++)
            piece[k] -= piece[k] >= 'a' && piece[k] <= 'z' ? 32 : 0;
    }
    reading = 0;
    ended |= RESULT(code) == DROPPED;
}

/* The same of a write: where nobody reads any more, there is no more to do. */
static void gave(uint32_t code) {
    writing = 0;
    sent += COUNT(code);
    if (RESULT(code) == DROPPED) {
        have = sent;
        ended = 1;
    }
}

static uint32_t go_on(void) {
    for (;;) {
        while (sent < have) {
            if (writing) return WAIT_FOR(set);
            uint32_t code = stream_u8_write(out, piece + sent, have - sent);
            if (code == BLOCKED)
                writing = 1;
            else
                gave(code);
        }
        if (ended) break;
        if (reading) return WAIT_FOR(set);
        uint32_t code = stream_u8_read(in, piece, sizeof piece);
        if (code == BLOCKED)
            reading = 1;
        else
            got(code);
    }
    if (reading) stream_u8_cancel_read(in);
    stream_u8_drop_readable(in);
    stream_u8_drop_writable(out);
    return EXIT;
}

EXPORT("run") uint32_t run(uint32_t from, uint32_t to, uint32_t size) {
    (void)size;
    in = from;
    out = to;
    set = waitable_set_new();
    waitable_join(in, set);
    waitable_join(out, set);
    return go_on();
}

EXPORT("callback") uint32_t callback(uint32_t event, uint32_t handle, uint32_t code) {
    (void)handle;
    if (event == EVENT_STREAM_READ) got(code);
    if (event == EVENT_STREAM_WRITE) gave(code);
    return go_on();
}
