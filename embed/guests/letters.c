/* As a writer it writes three letters, of which the last is none; as a reader it reads letters until the writer is
   gone. */
#include "canon.h"

STREAM_OF(char)

static const uint32_t letters[] = {'a', 'b', 0xd800};
static uint32_t read[8];
static uint32_t in, out, set, total;

static uint32_t go_on(void) {
    for (;;) {
        uint32_t code = in ? stream_char_read(in, read, 8) : stream_char_write(out, letters, 3);
        if (code == BLOCKED) return WAIT_FOR(set);
        total += COUNT(code);
        if (RESULT(code) == DROPPED) return EXIT;
    }
}

EXPORT("run") uint32_t run(uint32_t from, uint32_t to, uint32_t size) {
    (void)size;
    in = from;
    out = to;
    set = waitable_set_new();
    waitable_join(in ? in : out, set);
    return go_on();
}

EXPORT("callback") uint32_t callback(uint32_t event, uint32_t handle, uint32_t code) {
    (void)event, (void)handle;
    total += COUNT(code);
    return RESULT(code) == DROPPED ? EXIT : go_on();
}

EXPORT("total") uint32_t get_total(void) { return total; }
