/* Each call of {NULL}: strm_store_free does nothing, and the others answer so and write nothing. */
#include <stdio.h>
#include <string.h>

#include "strm.h"

static int wrong;
static unsigned calls;

static void expect(int holds, const char *what) {
    calls++;
    if (holds) return;
    printf("not so: %s\n", what);
    wrong = 1;
}

/* A call is made of {NULL}, and answers that there is no store. */
#define HAS_NO_STORE(call) expect((call) == STRM_NO_STORE && store.at == NULL, #call)

/* What is asked of no store at all: whose header this is, what a status is called, and a type by its words. */
static void name_all(void) {
    static const uint8_t words[] = {STRM_WORD_OPTION, STRM_U32, STRM_WORD_OPTION};
    strm_payload payload = 7;
    expect(strm_version() == STRM_VERSION, "strm_version");
    expect(strcmp(strm_status_name(STRM_DONE), "STRM_DONE") == 0, "strm_status_name");
    expect(strcmp(strm_status_name(STRM_NO_STORE), "STRM_NO_STORE") == 0, "strm_status_name of a status that is no refusal");
    expect(strcmp(strm_status_name(3), "?") == 0, "strm_status_name of none");
    expect(strm_type_of(words, 3, &payload) == STRM_NO_TYPE && payload == 7, "strm_type_of of more than a type");
    expect(strm_type_of(words, 2, &payload) == STRM_DONE && payload != 7, "strm_type_of");
}

static void query_none(strm_store store) {
    uint64_t type = 7;
    strm_count count = {7, 7};
    strm_bad_item item = {7, 7, 7};
    expect(strm_tag(&store) == 0, "strm_tag");
    expect(strm_streams(&store) == 0, "strm_streams");
    HAS_NO_STORE(strm_moved(&store, 0, &count));
    HAS_NO_STORE(strm_transmit_index(&store, 0, &type));
    HAS_NO_STORE(strm_find_bad_item(&store, STRM_SIDE_WRITING, 0, STRM_CHAR, 1, 0, 1, &item));
    expect(type == 7 && count.low == 7 && count.high == 7 && item.guest == 7 && item.handle == 7 && item.index == 7,
           "queries write nothing");
}

static void use_memory_of_none(strm_store store) {
    uint32_t guest = 7;
    uint8_t bytes[4] = {7, 7, 7, 7}, *at = bytes;
    size_t len = 7;
    HAS_NO_STORE(strm_add_guest(&store, 8, &guest));
    HAS_NO_STORE(strm_add_guest_at(&store, bytes, sizeof bytes, &guest));
    HAS_NO_STORE(strm_memory_grown(&store, 0, bytes, sizeof bytes));
    HAS_NO_STORE(strm_memory_moved(&store, 0, bytes, sizeof bytes));
    HAS_NO_STORE(strm_end_guest(&store, 0));
    HAS_NO_STORE(strm_begin_guest(&store, 0, 8));
    HAS_NO_STORE(strm_begin_guest_at(&store, 0, bytes, sizeof bytes));
    HAS_NO_STORE(strm_memory_write(&store, 0, 0, bytes, sizeof bytes));
    HAS_NO_STORE(strm_memory_read(&store, 0, 0, bytes, sizeof bytes));
    HAS_NO_STORE(strm_memory_at(&store, 0, &at, &len));
    expect(guest == 7 && at == bytes && len == 7 && memcmp(bytes, "\7\7\7\7", 4) == 0, "memories are as they were");
}

static void pass_streams_of_none(strm_store store) {
    strm_pair pair = {7, 7, 7};
    uint32_t out = 7;
    HAS_NO_STORE(strm_stream_new(&store, 0, STRM_U8, &pair));
    HAS_NO_STORE(strm_stream_write(&store, 0, STRM_U8, 2, 0, 1, &out));
    HAS_NO_STORE(strm_stream_read(&store, 0, STRM_U8, 1, 0, 1, &out));
    HAS_NO_STORE(strm_stream_cancel_write(&store, 0, STRM_U8, 2, &out));
    HAS_NO_STORE(strm_stream_cancel_read(&store, 0, STRM_U8, 1, &out));
    HAS_NO_STORE(strm_stream_drop_writable(&store, 0, STRM_U8, 2));
    HAS_NO_STORE(strm_stream_drop_readable(&store, 0, STRM_U8, 1));
    HAS_NO_STORE(strm_take_event(&store, 0, 1, &out));
    HAS_NO_STORE(strm_stream_new(&store, 0, 11, &pair));
    HAS_NO_STORE(strm_stream_write(&store, 0, 11, 2, 0, 1, &out));
    expect(pair.read == 7 && pair.write == 7 && pair.stream == 7 && out == 7, "streams write nothing");
}

static void pass_futures_of_none(strm_store store) {
    strm_pair pair = {7, 7, 7};
    uint32_t out = 7;
    HAS_NO_STORE(strm_future_new(&store, 0, STRM_U8, &pair));
    HAS_NO_STORE(strm_future_write(&store, 0, STRM_U8, 2, 0, &out));
    HAS_NO_STORE(strm_future_read(&store, 0, STRM_U8, 1, 0, &out));
    HAS_NO_STORE(strm_future_cancel_write(&store, 0, STRM_U8, 2, &out));
    HAS_NO_STORE(strm_future_cancel_read(&store, 0, STRM_U8, 1, &out));
    HAS_NO_STORE(strm_future_drop_writable(&store, 0, STRM_U8, 2));
    HAS_NO_STORE(strm_future_drop_readable(&store, 0, STRM_U8, 1));
    expect(pair.read == 7 && pair.write == 7 && pair.stream == 7 && out == 7, "futures write nothing");
}

static void move_ends_of_none(strm_store store) {
    strm_pair pair = {7, 7, 7};
    uint32_t out = 7;
    HAS_NO_STORE(strm_new_between(&store, 0, 1, STRM_U8, &pair));
    HAS_NO_STORE(strm_stream_transfer(&store, 0, STRM_U8, 1, 0, &out));
    HAS_NO_STORE(strm_future_transfer(&store, 0, STRM_U8, 1, 0, &out));
    HAS_NO_STORE(strm_lift(&store, 0, STRM_U8, 1, &out));
    HAS_NO_STORE(strm_lower(&store, 0, 0, STRM_U8, &out));
    HAS_NO_STORE(strm_close(&store, 0));
    expect(pair.read == 7 && pair.write == 7 && pair.stream == 7 && out == 7, "moves write nothing");
}

static void join_sets_of_none(strm_store store) {
    strm_member member = {7, 7};
    uint32_t out = 7;
    HAS_NO_STORE(strm_set_new(&store, 0, &out));
    HAS_NO_STORE(strm_set_join(&store, 0, 1, 2));
    HAS_NO_STORE(strm_set_poll(&store, 0, 1, &member));
    HAS_NO_STORE(strm_set_drop(&store, 0, 1));
    expect(member.handle == 7 && member.code == 7 && out == 7, "sets write nothing");
}

static void tell_contexts_of_none(strm_store store) {
    uint32_t out = 7;
    HAS_NO_STORE(strm_error_context_new(&store, 0, 0, 0, &out));
    HAS_NO_STORE(strm_error_context_message(&store, 0, 1, 0, &out));
    HAS_NO_STORE(strm_error_context_transfer(&store, 0, 1, 0, &out));
    HAS_NO_STORE(strm_error_context_rep(&store, 0, 1, &out));
    HAS_NO_STORE(strm_error_context_lower(&store, 0, 0, &out));
    HAS_NO_STORE(strm_error_context_drop(&store, 0, 1));
    expect(out == 7, "error contexts write nothing");
}

static void ask_handles_of_none(strm_store store) {
    strm_handle told = {.type = 7, .handle = 7, .event = 7};
    uint32_t out = 7;
    HAS_NO_STORE(strm_handle_info(&store, 0, 1, &told));
    HAS_NO_STORE(strm_next_handle(&store, 0, 0, &told));
    HAS_NO_STORE(strm_handle_count(&store, 0, &out));
    HAS_NO_STORE(strm_next_ready_guest(&store, 0, &out));
    expect(told.type == 7 && told.handle == 7 && told.event == 7 && out == 7, "queries of handles write nothing");
}

static void limit_guests_of_none(strm_store store) {
    strm_limits limits = {7, 7, 7};
    HAS_NO_STORE(strm_set_guest_limits(&store, 0, 1, 2, 3));
    HAS_NO_STORE(strm_guest_limits(&store, 0, &limits));
    expect(limits.bytes == 7 && limits.handles == 7 && limits.ends == 7, "limits write nothing");
}

int main(void) {
    strm_store store = {NULL};
    name_all();
    strm_store_free(&store);
    expect(store.at == NULL, "free of none");
    query_none(store);
    use_memory_of_none(store);
    pass_streams_of_none(store);
    pass_futures_of_none(store);
    move_ends_of_none(store);
    join_sets_of_none(store);
    tell_contexts_of_none(store);
    ask_handles_of_none(store);
    limit_guests_of_none(store);
    expect(strm_store_new(&store, 7, 10, 10) == STRM_DONE && strm_tag(&store) == 7, "a store is made");
    strm_store_free(&store);
    strm_store_free(&store);
    expect(store.at == NULL && strm_tag(&store) == 0, "free twice");
    printf("%u answers of no store: %s\n", calls, wrong ? "some are wrong" : "all as they should be");
    return wrong;
}
