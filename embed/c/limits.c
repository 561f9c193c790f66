/* Plugins that do not trust each other: one takes all that it is let take, and the other has its share. */
#include <stdio.h>
#include <stdlib.h>

#include "strm.h"

static void must(strm_status status) {
    if (status == STRM_DONE) return;
    fprintf(stderr, "%s\n", strm_status_name(status));
    exit(1);
}

/* Streams of a guest until there are no more: how many it got, and why it gets no more. */
static strm_status take_streams(strm_store *store, uint32_t guest, uint32_t *count, strm_pair *last) {
    strm_status status;
    for (*count = 0;; ++*count) {
        strm_pair pair;
        status = strm_stream_new(store, guest, STRM_U8, &pair);
        if (status != STRM_DONE) return status;
        *last = pair;
    }
}

static const char *why(strm_status status) {
    return status == STRM_GUEST_LIMIT ? "its own limit" : status == STRM_HANDLE_LIMIT ? "that of all" : "something else";
}

int main(void) {
    strm_store store = {NULL};
    uint32_t greedy, modest, count, set;
    strm_pair last = {0, 0, 0};
    strm_limits limits;
    must(strm_store_new(&store, 0, 100, 1000));
    must(strm_add_guest(&store, 64, &greedy));
    must(strm_add_guest(&store, 64, &modest));

    must(strm_set_guest_limits(&store, greedy, 40, 20, 8192));
    must(strm_guest_limits(&store, greedy, &limits));
    printf("guest %u may have %u handles, %u ends, %u bytes\n", greedy, limits.handles, limits.ends, (unsigned)limits.bytes);
    strm_status status = take_streams(&store, greedy, &count, &last);
    printf("it makes %u streams, and is kept from more by %s\n", count, why(status));
    must(strm_set_new(&store, greedy, &set));
    printf("it still makes a set: handle %u\n", set);

    must(strm_stream_drop_readable(&store, greedy, STRM_U8, last.read));
    printf("with one end less it makes a stream: %s\n", strm_stream_new(&store, greedy, STRM_U8, &last) ? "no" : "yes");
    must(strm_stream_drop_writable(&store, greedy, STRM_U8, last.write));
    printf("with two less: %s\n", strm_stream_new(&store, greedy, STRM_U8, &last) ? "no" : "yes");

    uint32_t contexts = 0, handle;
    while (strm_error_context_new(&store, greedy, 0, 0, &handle) == STRM_DONE) ++contexts;
    printf("it makes %u error contexts\n", contexts);

    status = take_streams(&store, modest, &count, &last);
    printf("guest %u, which has no limits, makes %u streams, and is kept from more by %s\n", modest, count, why(status));
    strm_store_free(&store);
    return 0;
}
