/* Reads pieces until the writer is gone, and keeps their number, a hash of all bytes, and the first of them. */
#include "canon.h"

STREAM_OF(u8)

static unsigned char piece[65536], first[4096];
static uint32_t in, set, total, hash, ended;

static void got(uint32_t code) {
    for (uint32_t k = 0; k < COUNT(code); k++) {
        if (total + k < sizeof first) first[total + k] = piece[k];
        hash = hash * 31 + piece[k];
    }
    total += COUNT(code);
    ended = RESULT(code) == DROPPED;
}

static uint32_t go_on(void) {
    while (!ended) {
        uint32_t code = stream_u8_read(in, piece, sizeof piece);
        if (code == BLOCKED) return WAIT_FOR(set);
        got(code);
    }
    stream_u8_drop_readable(in);
    return EXIT;
}

EXPORT("run") uint32_t run(uint32_t from, uint32_t to, uint32_t size) {
    (void)to, (void)size;
    in = from;
    set = waitable_set_new();
    waitable_join(in, set);
    return go_on();
}

EXPORT("callback") uint32_t callback(uint32_t event, uint32_t handle, uint32_t code) {
    (void)handle;
    if (event == EVENT_STREAM_READ) got(code);
    return go_on();
}

EXPORT("total") uint32_t get_total(void) { return total; }
EXPORT("hash") uint32_t get_hash(void) { return hash; }
EXPORT("first") uint32_t get_first(void) { return (uint32_t)(uintptr_t)first; }
