/* Two guests pass bytes and pairs, in place: the embedder has the addresses of their memories. */
#include <stdio.h>
#include <stdlib.h>
#include <string.h>

#include "strm.h"

static void must(strm_status status) {
    if (status == STRM_DONE) return;
    fprintf(stderr, "%s\n", strm_status_name(status));
    exit(1);
}

static void show(const char *what, uint32_t code) {
    static const char *results[] = {"completed", "dropped", "cancelled"};
    if (code == STRM_BLOCKED)
        printf("%s: blocked\n", what);
    else if (code == STRM_NO_EVENT)
        printf("%s: nothing\n", what);
    else
        printf("%s: %s, %u items\n", what, results[STRM_RESULT(code)], STRM_COUNT(code));
}

/* A tuple of a u8 and a u32: its fields lie as the Canonical ABI has them, at 0 and 4. */
#define PAIR (STRM_TUPLE | STRM_FIELD(0, STRM_U8) | STRM_FIELD(1, STRM_U32))
typedef struct {
    uint8_t kind;
    uint32_t value;
} pair_item;

static void pass_bytes(strm_store *store, uint32_t writer, uint32_t reader, uint8_t *from, uint8_t *to) {
    strm_pair ends;
    strm_count moved;
    uint32_t code;
    must(strm_new_between(store, writer, reader, STRM_U8, &ends));
    memcpy(from + 100, "hello", 5);
    must(strm_stream_write(store, writer, STRM_U8, ends.write, 100, 5, &code));
    show("write", code);
    memcpy(from + 100, "jello", 5); /* the write waits, and its bytes are read when the read comes */
    must(strm_stream_read(store, reader, STRM_U8, ends.read, 0, 8, &code));
    show("read", code);
    printf("%.5s\n", (char *)to);
    must(strm_take_event(store, writer, ends.write, &code));
    show("event", code);
    must(strm_moved(store, ends.stream, &moved));
    printf("moved: %llu\n", (unsigned long long)moved.low);
    if (strm_stream_write(store, writer, STRM_U32, ends.write, 0, 1, &code) == STRM_WRONG_TYPE)
        printf("a write of numbers: refused\n");
    must(strm_stream_drop_readable(store, reader, STRM_U8, ends.read));
    must(strm_stream_write(store, writer, STRM_U8, ends.write, 0, 5, &code));
    show("write", code);
}

static void pass_pairs(strm_store *store, uint32_t writer, uint32_t reader, uint8_t *from, uint8_t *to) {
    static const pair_item items[2] = {{1, 1000}, {2, 2000}};
    pair_item got[2];
    strm_pair ends;
    uint32_t code;
    must(strm_new_between(store, writer, reader, PAIR, &ends));
    memcpy(from + 200, items, sizeof items);
    must(strm_stream_write(store, writer, PAIR, ends.write, 200, 2, &code));
    must(strm_stream_read(store, reader, PAIR, ends.read, 400, 2, &code));
    show("read of pairs", code);
    memcpy(got, to + 400, sizeof got);
    printf("%u %u, %u %u\n", got[0].kind, got[0].value, got[1].kind, got[1].value);
}

int main(void) {
    strm_store store = {NULL};
    uint32_t writer, reader;
    uint8_t *from, *to;
    size_t len;
    must(strm_store_new(&store, 7, 100, 100));
    must(strm_add_guest(&store, 65536, &writer));
    must(strm_add_guest(&store, 65536, &reader));
    must(strm_memory_at(&store, writer, &from, &len));
    must(strm_memory_at(&store, reader, &to, &len));
    pass_bytes(&store, writer, reader, from, to);
    pass_pairs(&store, writer, reader, from, to);
    strm_store_free(&store);
    printf("given up: %s\n", store.at == NULL ? "yes" : "no");
    return 0;
}
