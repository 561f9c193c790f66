/* Writes so many samples, and then reads what they come to. */
#include "canon.h"

/* As the Canonical ABI lays out a tuple of u8 and u32. */
typedef struct {
    uint8_t channel;
    uint32_t value;
} sample;

STREAM_OF(sample)
FUTURE_OF(u64)

static sample samples[1000];
static uint64_t answer;
static uint32_t in, out, set, left, at, answered;

static void moved(uint32_t code) {
    left = RESULT(code) == DROPPED ? 0 : left - COUNT(code);
    at = (at + COUNT(code)) % 1000;
}

static uint32_t finish(void) {
    if (!answered && future_u64_read(in, &answer) == BLOCKED) return WAIT_FOR(set);
    future_u64_drop_readable(in);
    return EXIT;
}

static uint32_t go_on(void) {
    while (left > 0) {
        uint32_t count = left < 1000 - at ? left : 1000 - at;
        uint32_t code = stream_sample_write(out, samples + at, count);
        if (code == BLOCKED) return WAIT_FOR(set);
        moved(code);
    }
    stream_sample_drop_writable(out);
    return finish();
}

EXPORT("run") uint32_t run(uint32_t from, uint32_t to, uint32_t size) {
    in = from;
    out = to;
    left = size;
    for (uint32_t k = 0; k < 1000; k++) samples[k] = (sample){.channel = k % 3, .value = 4000000000u + k};
    set = waitable_set_new();
    waitable_join(in, set);
    waitable_join(out, set);
    return go_on();
}

EXPORT("callback") uint32_t callback(uint32_t event, uint32_t handle, uint32_t code) {
    (void)handle;
    if (event == EVENT_STREAM_WRITE) moved(code);
    if (event == EVENT_FUTURE_READ) answered = 1;
    return answered ? finish() : go_on();
}

EXPORT("answer") uint64_t get_answer(void) { return answer; }
