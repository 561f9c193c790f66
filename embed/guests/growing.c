/* One of a line, by the ends that it has: it writes bytes, passes them on or keeps a hash of them. Its memory grows
   twice, at a third of the bytes and at two, each time while it waits for its read or write; from then on it has its
   bytes in the pages that are new. */
#include "canon.h"

STREAM_OF(u8)

enum { PIECE = 65536, PAGES = 32, GROWS = 2 };

static unsigned char first[PIECE], *newest = first, *piece = first;
static uint32_t in, out, set, size, done, have, sent, writing, ended, hash, grown;

static uint32_t smaller(uint32_t a, uint32_t b) { return a < b ? a : b; }

/* What the source writes, and the filter makes of it. */
static unsigned char byte_at(uint32_t k) { return (unsigned char)((k * 2654435761u) >> 24); }
static unsigned char passed_on(unsigned char byte) { return byte ^ 0x5a; }

static uint32_t wait(void) {
    if (grown < GROWS && done > size / (GROWS + 1) * (grown + 1)) {
        uint32_t pages = __builtin_wasm_memory_grow(0, PAGES);
        if (pages == 0xffffffffu) __builtin_trap();
        newest = (unsigned char *)(pages * 65536);
        grown++;
    }
    return WAIT_FOR(set);
}

/* What a read or its event tells; what came is hashed, and made what the filter passes on. An end that has nothing
   under way is told too that the other is gone. */
static void got(uint32_t code) {
    ended |= RESULT(code) == DROPPED;
    if (COUNT(code) == 0) return;
    have = COUNT(code);
    sent = 0;
    for (uint32_t k = 0; k < have; k++) {
        hash = hash * 31 + piece[k];
        piece[k] = passed_on(piece[k]);
    }
    if (out == 0) done += have;
}

static void gave(uint32_t code) {
    writing = 0;
    sent += COUNT(code);
    done += COUNT(code);
    if (RESULT(code) == DROPPED) __builtin_trap();
}

/* The next piece: of a source at once, else by a read. Whether it waits. */
static uint32_t next_piece(void) {
    piece = newest;
    if (in == 0) {
        have = smaller(size - done, PIECE);
        sent = 0;
        ended = have == 0;
        for (uint32_t k = 0; k < have; k++) piece[k] = byte_at(done + k);
        return 0;
    }
    uint32_t code = stream_u8_read(in, piece, PIECE);
    if (code == BLOCKED) return 1;
    got(code);
    return 0;
}

static uint32_t go_on(void) {
    for (;;) {
        while (out != 0 && sent < have) {
            if (writing) return WAIT_FOR(set);
            uint32_t code = stream_u8_write(out, piece + sent, have - sent);
            if (code != BLOCKED) {
                gave(code);
                continue;
            }
            writing = 1;
            return wait();
        }
        if (ended) break;
        if (next_piece()) return wait();
    }
    if (in != 0) stream_u8_drop_readable(in);
    if (out != 0) stream_u8_drop_writable(out);
    return EXIT;
}

EXPORT("run") uint32_t run(uint32_t from, uint32_t to, uint32_t bytes) {
    in = from;
    out = to;
    size = bytes;
    set = waitable_set_new();
    if (in != 0) waitable_join(in, set);
    if (out != 0) waitable_join(out, set);
    return go_on();
}

EXPORT("callback") uint32_t callback(uint32_t event, uint32_t handle, uint32_t code) {
    (void)handle;
    if (event == EVENT_STREAM_READ) got(code);
    if (event == EVENT_STREAM_WRITE) gave(code);
    return go_on();
}

/* So many pages more, which it does not touch. */
EXPORT("widen") uint32_t widen(uint32_t pages) { return __builtin_wasm_memory_grow(0, pages); }

EXPORT("done") uint32_t get_done(void) { return done; }
EXPORT("hash") uint32_t get_hash(void) { return hash; }
EXPORT("grown") uint32_t get_grown(void) { return grown; }
