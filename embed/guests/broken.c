/* A guest that traps once it has read or written half of so many bytes, with its next read or write under way; of no
   bytes it ends at once. It gives nothing up by itself. */
#include "canon.h"

STREAM_OF(u8)

static unsigned char piece[4096];
static uint32_t in, out, set, moved, limit;

static uint32_t go_on(void) {
    for (;;) {
        uint32_t code = in ? stream_u8_read(in, piece, sizeof piece) : stream_u8_write(out, piece, sizeof piece);
        if (moved >= limit) __builtin_trap();
        if (code == BLOCKED) return WAIT_FOR(set);
        moved += COUNT(code);
    }
}

EXPORT("run") uint32_t run(uint32_t from, uint32_t to, uint32_t size) {
    in = from;
    out = to;
    limit = size / 2;
    set = waitable_set_new();
    waitable_join(in ? in : out, set);
    return limit == 0 ? EXIT : go_on();
}

EXPORT("callback") uint32_t callback(uint32_t event, uint32_t handle, uint32_t code) {
    (void)event, (void)handle;
    moved += COUNT(code);
    return go_on();
}
