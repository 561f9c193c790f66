/* Reads samples until the writer is gone, and writes the sum of their values, each times its channel. */
#include "canon.h"

/* As the Canonical ABI lays out a tuple of u8 and u32. */
typedef struct {
    uint8_t channel;
    uint32_t value;
} sample;

STREAM_OF(sample)
FUTURE_OF(u64)

/* Where the samples go: into a page that the memory grows by, or where it does not grow among these. */
static sample few[300], *samples = few;
static uint32_t room = 300;
static uint64_t sum;
static uint32_t in, out, set, ended, written;

static void got(uint32_t code) {
    for (uint32_t k = 0; k < COUNT(code); k++) sum += (uint64_t)samples[k].value * samples[k].channel;
    ended = RESULT(code) == DROPPED;
}

static uint32_t go_on(void) {
    while (!ended) {
        uint32_t code = stream_sample_read(in, samples, room);
        if (code == BLOCKED) return WAIT_FOR(set);
        got(code);
    }
    if (!written && future_u64_write(out, &sum) == BLOCKED) return WAIT_FOR(set);
    stream_sample_drop_readable(in);
    future_u64_drop_writable(out);
    return EXIT;
}

EXPORT("run") uint32_t run(uint32_t from, uint32_t to, uint32_t size) {
    (void)size;
    in = from;
    out = to;
    uint32_t page = __builtin_wasm_memory_grow(0, 1);
    if (page != 0xffffffffu) {
        samples = (sample *)(page * 65536);
        room = 65536 / sizeof *samples;
    }
    set = waitable_set_new();
    waitable_join(in, set);
    waitable_join(out, set);
    return go_on();
}

EXPORT("callback") uint32_t callback(uint32_t event, uint32_t handle, uint32_t code) {
    (void)handle;
    if (event == EVENT_STREAM_READ) got(code);
    if (event == EVENT_FUTURE_WRITE) written = 1;
    return go_on();
}
