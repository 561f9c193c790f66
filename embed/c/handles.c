/* What a runtime asks of a guest's handles: it lists them, as the guest ends, and as another begins under its number;
   and which guests are ready meanwhile. No table of handles is kept here. */
#include <stdio.h>
#include <stdlib.h>
#include <string.h>

#include "strm.h"

static void must(strm_status status) {
    if (status == STRM_DONE) return;
    fprintf(stderr, "%s\n", strm_status_name(status));
    exit(1);
}

static void show_other(const strm_handle *end) {
    if (end->other == STRM_OTHER_GUEST)
        printf("its other end is handle %u of guest %u", end->other_handle, end->other_guest);
    else
        printf("its other end is %s", end->other == STRM_OTHER_LOOSE ? "loose" : "gone");
    if (end->event != STRM_NO_EVENT) printf(", it is to be told %#x", end->event);
    printf("\n");
}

static void show(const strm_handle *it) {
    static const char *kinds[] = {"none", "an end", "a waitable set", "an error context", "something else"};
    printf("  %u: ", it->handle);
    if (it->kind != STRM_KIND_END) {
        printf("%s\n", kinds[it->kind]);
        return;
    }
    printf("the %s end of %s %u, ", it->side == STRM_SIDE_READING ? "read" : "write",
           it->type & STRM_FUTURE ? "future" : "stream", it->stream);
    show_other(it);
}

/* All handles of a guest: each call goes on behind the last handle, so together they cost one pass. */
static void list(strm_store *store, uint32_t guest) {
    strm_handle next = {.handle = 0};
    uint32_t count;
    must(strm_handle_count(store, guest, &count));
    printf("guest %u has %u handles\n", guest, count);
    for (;;) {
        must(strm_next_handle(store, guest, next.handle, &next));
        if (next.handle == 0) return;
        show(&next);
    }
}

/* The guests that are ready: each call goes on behind the last guest, and looks at no other. */
static void list_ready(strm_store *store) {
    uint32_t guest, from = 0;
    printf("ready:");
    for (;;) {
        must(strm_next_ready_guest(store, from, &guest));
        if (guest == STRM_NO_GUEST) break;
        printf(" guest %u", guest);
        from = guest + 1;
    }
    printf(from == 0 ? " no guest\n" : "\n");
}

int main(void) {
    strm_store store = {NULL};
    strm_pair bytes, words, value, owed;
    uint32_t guest, peer, set, context, reader, read, code;
    must(strm_store_new(&store, 7, 100, 100));
    must(strm_add_guest(&store, 64, &guest));
    must(strm_add_guest(&store, 64, &peer));
    must(strm_new_between(&store, guest, peer, STRM_U8, &bytes));
    must(strm_new_between(&store, peer, guest, STRM_U32, &words));
    must(strm_set_new(&store, guest, &set));
    must(strm_future_new(&store, guest, STRM_U32, &value));
    must(strm_error_context_new(&store, guest, 0, 0, &context));
    must(strm_new_between(&store, guest, peer, STRM_U8 | STRM_FUTURE, &owed));
    must(strm_set_join(&store, guest, set, bytes.write));
    must(strm_stream_write(&store, guest, STRM_U8, bytes.write, 0, 5, &code));
    must(strm_stream_read(&store, peer, STRM_U8, bytes.read, 0, 3, &code));
    must(strm_stream_drop_writable(&store, peer, STRM_U32, words.write));
    must(strm_future_write(&store, guest, STRM_U32, value.write, 8, &code));
    must(strm_lift(&store, guest, STRM_U32 | STRM_FUTURE, value.read, &reader));
    list(&store, guest);
    list(&store, peer);
    list_ready(&store);
    must(strm_take_event(&store, guest, bytes.write, &code));
    must(strm_take_event(&store, guest, words.read, &code));
    list_ready(&store);
    must(strm_end_guest(&store, guest));
    printf("guest %u has ended\n", guest);
    list(&store, guest);
    list(&store, peer);
    list_ready(&store);
    must(strm_lower(&store, reader, peer, STRM_U32 | STRM_FUTURE, &read));
    must(strm_begin_guest(&store, guest, 64));
    must(strm_set_new(&store, guest, &set));
    printf("another has begun\n");
    list(&store, guest);
    list(&store, peer);
    strm_store_free(&store);
    return 0;
}
