/* A file is read as the components of today read it: a stream of its bytes, and beside it a future of a result that
   says how the reading ended. */
#include <stdio.h>
#include <stdlib.h>
#include <string.h>

#include "strm.h"

/* WASI has more cases; those of an enum are told apart by their numbers alone. */
enum { ERROR_IO, ERROR_ILLEGAL_BYTE_SEQUENCE, ERROR_PIPE, ERROR_CODES };

/* result<_, error-code>: whether it failed, and why. */
typedef struct {
    uint8_t failed;
    uint8_t why;
} done_item;

static void must(strm_status status) {
    if (status == STRM_DONE) return;
    fprintf(stderr, "%s\n", strm_status_name(status));
    exit(1);
}

static strm_payload done_type(void) {
    static const uint8_t words[] = {STRM_WORD_RESULT, STRM_WORD_NOTHING, STRM_WORD_ENUM(ERROR_CODES)};
    strm_payload done;
    must(strm_type_of(words, sizeof words, &done));
    return done;
}

/* The host's side: what there is of the file is written, and then how it ended. */
static void serve(strm_store *store, uint32_t host, strm_pair bytes, strm_pair done, strm_payload done_of, uint8_t *memory) {
    static const done_item failed = {1, ERROR_PIPE};
    uint32_t code;
    memcpy(memory, "half of it", 10);
    must(strm_stream_write(store, host, STRM_U8, bytes.write, 0, 10, &code));
    printf("wrote %u bytes\n", STRM_COUNT(code));
    must(strm_stream_drop_writable(store, host, STRM_U8, bytes.write));
    memcpy(memory + 16, &failed, sizeof failed);
    must(strm_future_write(store, host, done_of, done.write, 16, &code));
}

int main(void) {
    strm_store store = {NULL};
    strm_pair bytes, done;
    uint32_t host, guest, code;
    uint8_t *from, *to;
    size_t len;
    done_item told;
    strm_payload done_of = done_type(), large;
    must(strm_store_new(&store, 7, 100, 100));
    must(strm_add_guest(&store, 65536, &host));
    must(strm_add_guest(&store, 65536, &guest));
    must(strm_memory_at(&store, host, &from, &len));
    must(strm_memory_at(&store, guest, &to, &len));
    must(strm_new_between(&store, host, guest, STRM_U8, &bytes));
    must(strm_new_between(&store, host, guest, done_of | STRM_FUTURE, &done));
    must(strm_stream_read(&store, guest, STRM_U8, bytes.read, 0, 100, &code));
    must(strm_future_read(&store, guest, done_of, done.read, 200, &code));
    serve(&store, host, bytes, done, done_of, from);
    must(strm_take_event(&store, guest, bytes.read, &code));
    printf("read %u bytes: %.10s\n", STRM_COUNT(code), (char *)to);
    must(strm_take_event(&store, guest, done.read, &code));
    memcpy(&told, to + 200, sizeof told);
    printf("failed: %s\n", told.failed && told.why == ERROR_PIPE ? "pipe" : "not so");
    if (strm_type_of((const uint8_t[]){STRM_WORD_ENUM(0)}, 1, &large) == STRM_NO_TYPE) printf("an enum without cases: no type\n");
    strm_store_free(&store);
    return 0;
}
