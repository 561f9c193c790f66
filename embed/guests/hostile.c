/* Calls one import after the other, or has its memory grow, at random, with arguments at random. Each call of
   `attack` is one such call; what is refused traps the guest there. `flood` makes and drops streams, as many as
   it is let. */
#include "canon.h"

STREAM_OF(u8)
FUTURE_OF(u32)

static uint32_t seed = 1;

static uint32_t draw(void) {
    seed ^= seed << 13;
    seed ^= seed >> 17;
    return seed ^= seed << 5;
}

/* A small number, any number, or one near an end. */
static uint32_t number(void) {
    switch (draw() % 4) {
    case 0: return draw() % 16;
    case 1: return draw() % 131072;
    case 2: return 0u - draw() % 16;
    default: return draw();
    }
}

/* How often the memory grew, and how often memory.grow did or answered anything but one of two things: so many pages of
   zeros more, and how many there were; or none, and -1, which is no answer to 0. */
static uint32_t grown, wrong;

static void grow(uint32_t pages) {
    uint32_t before = __builtin_wasm_memory_size(0), answer = __builtin_wasm_memory_grow(0, pages);
    uint32_t after = __builtin_wasm_memory_size(0);
    if (answer == 0xffffffffu) {
        wrong += after != before || pages == 0;
        return;
    }
    wrong += answer != before || after != before + pages;
    grown += pages > 0;
    for (const uint32_t *word = (uint32_t *)(before * 65536); word < (uint32_t *)(after * 65536); word++) wrong += *word != 0;
}

EXPORT("attack") void attack(void) {
    uint32_t a = number(), b = number(), c = number();
    switch (draw() % 23) {
    case 0: stream_u8_new(); break;
    case 1: stream_u8_read(a, (void *)b, c); break;
    case 2: stream_u8_write(a, (void *)b, c); break;
    case 3: stream_u8_cancel_read(a); break;
    case 4: stream_u8_cancel_write(a); break;
    case 5: stream_u8_drop_readable(a); break;
    case 6: stream_u8_drop_writable(a); break;
    case 7: future_u32_new(); break;
    case 8: future_u32_read(a, (void *)b); break;
    case 9: future_u32_write(a, (void *)b); break;
    case 10: future_u32_cancel_read(a); break;
    case 11: future_u32_cancel_write(a); break;
    case 12: future_u32_drop_readable(a); break;
    case 13: future_u32_drop_writable(a); break;
    case 14: waitable_set_new(); break;
    case 15: waitable_join(a, b); break;
    case 16: waitable_set_poll(a, (uint32_t *)b); break;
    case 17: waitable_set_drop(a); break;
    case 18: error_context_new((void *)a, b % 8192); break;
    case 19: error_context_drop(a); break;
    case 20: grow(0); break;
    case 21: grow(a); break;
    default: grow(a % 4); break;
    }
}

EXPORT("wrong") uint32_t get_wrong(void) { return wrong; }
EXPORT("grown") uint32_t get_grown(void) { return grown; }

EXPORT("flood") void flood(uint32_t rounds) {
    for (; rounds > 0; rounds--) {
        uint64_t ends = stream_u8_new();
        stream_u8_drop_writable((uint32_t)(ends >> 32));
        stream_u8_drop_readable((uint32_t)ends);
    }
}
