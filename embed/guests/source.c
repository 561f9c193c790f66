/* Writes so many bytes of a text that repeats, in pieces, and then drops its end. */
#include "canon.h"

STREAM_OF(u8)

static const char text[] = "a count reported is a count moved\n";
static char piece[65536 + sizeof text];
static uint32_t out, set, left, at;

static void moved(uint32_t code) {
    left = RESULT(code) == DROPPED ? 0 : left - COUNT(code);
    at = (at + COUNT(code)) % (sizeof text - 1);
}

static uint32_t go_on(void) {
    while (left > 0) {
        uint32_t count = left < 65536 ? left : 65536;
        uint32_t code = stream_u8_write(out, piece + at, count);
        if (code == BLOCKED) return WAIT_FOR(set);
        moved(code);
    }
    stream_u8_drop_writable(out);
    return EXIT;
}

EXPORT("run") uint32_t run(uint32_t in, uint32_t to, uint32_t size) {
    (void)in;
    out = to;
    left = size;
    for (uint32_t k = 0; k < sizeof piece; k++) piece[k] = text[k % (sizeof text - 1)];
    set = waitable_set_new();
    waitable_join(out, set);
    return go_on();
}

EXPORT("callback") uint32_t callback(uint32_t event, uint32_t handle, uint32_t code) {
    (void)handle;
    if (event == EVENT_STREAM_WRITE) moved(code);
    return go_on();
}
