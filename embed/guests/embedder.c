#include "embedder.h"

#include <stdlib.h>

enum { EVENT_NONE, EVENT_STREAM_READ = 2, EVENT_STREAM_WRITE, EVENT_FUTURE_READ, EVENT_FUTURE_WRITE };
enum { EXIT, YIELD, WAIT };

/* HOW GUESTS BEGIN AND END. There are as many numbers as guests at once: that of one that ended is given again. */

/* The least number that no guest has, or one more. */
static strm_status free_number(embedder *embedder, uint32_t *number) {
    for (*number = 0; *number < embedder->count; ++*number)
        if (embedder->guests[*number] == NULL) return STRM_DONE;
    guest **guests = realloc(embedder->guests, (embedder->count + (size_t)1) * sizeof *guests);
    if (guests == NULL) return STRM_OUT_OF_MEMORY;
    embedder->guests = guests;
    strm_status status = strm_add_guest(&embedder->store, 0, number);
    if (status == STRM_DONE) guests[embedder->count++] = NULL;
    return status;
}

strm_status guest_begin(guest *guest, uint8_t *bytes, size_t len) {
    embedder *embedder = guest->embedder;
    uint32_t number, size = len < UINT32_MAX ? (uint32_t)len : UINT32_MAX;
    strm_status status = free_number(embedder, &number);
    if (status != STRM_DONE) return status;
    status = bytes == NULL ? strm_begin_guest(&embedder->store, number, size)
                           : strm_begin_guest_at(&embedder->store, number, bytes, len);
    if (status != STRM_DONE) return status;
    embedder->guests[number] = guest;
    guest->number = number;
    return status;
}

void guest_end(guest *guest, guest_state state) {
    embedder *embedder = guest->embedder;
    if (guest->number == GUEST_NONE) return;
    (void)!strm_end_guest(&embedder->store, guest->number);
    embedder->guests[guest->number] = NULL;
    guest->number = GUEST_NONE;
    guest->state = state;
}

bool guest_stop_writer(guest *reader, strm_type type, uint32_t handle, uint32_t address, uint32_t count) {
    strm_bad_item item;
    embedder *embedder = reader->embedder;
    strm_status status = strm_find_bad_item(
        &embedder->store, STRM_SIDE_READING, reader->number, type, handle, address, count, &item);
    if (status != STRM_DONE) return false;
    guest *writer = embedder->guests[item.guest];
    writer->refused = STRM_BAD_ITEM;
    guest_end(writer, GUEST_TRAPPED);
    return true;
}

void embedder_free(embedder *embedder) {
    for (uint32_t number = 0; number < embedder->count; number++)
        if (embedder->guests[number] != NULL) guest_end(embedder->guests[number], GUEST_ENDED);
    strm_store_free(&embedder->store);
    free(embedder->guests);
    embedder->guests = NULL;
    embedder->count = 0;
}

/* EVENTS AND TURNS */

static uint32_t event_of(const strm_handle *end) {
    bool reads = end->side == STRM_SIDE_READING;
    if (end->type & STRM_FUTURE) return reads ? EVENT_FUTURE_READ : EVENT_FUTURE_WRITE;
    return reads ? EVENT_STREAM_READ : EVENT_STREAM_WRITE;
}

strm_status guest_poll(guest *guest, uint32_t set, uint32_t *event, uint32_t told[2]) {
    strm_store *store = &guest->embedder->store;
    strm_member member = {0, STRM_NO_EVENT};
    strm_handle end;
    *event = told[0] = told[1] = EVENT_NONE;
    strm_status status = strm_set_poll(store, guest->number, set, &member);
    if (status != STRM_DONE || member.code == STRM_NO_EVENT) return status;
    status = strm_handle_info(store, guest->number, member.handle, &end);
    if (status != STRM_DONE) return status;
    if (guest->engine->settle != NULL) guest->engine->settle(guest, member.handle, member.code);
    *event = event_of(&end);
    told[0] = member.handle;
    told[1] = member.code;
    return STRM_DONE;
}

static void go_on(guest *guest, bool came_back) {
    if (!came_back || (guest->answer & 15) > WAIT)
        guest_end(guest, GUEST_TRAPPED);
    else if ((guest->answer & 15) == EXIT)
        guest_end(guest, GUEST_ENDED);
}

void guest_run(guest *guest, uint32_t in, uint32_t out, uint32_t size) {
    go_on(guest, guest->engine->run(guest, in, out, size, &guest->answer));
}

bool guest_turn(guest *guest) {
    uint32_t event = EVENT_NONE, told[2] = {0, 0};
    if (guest->state != GUEST_RUNS) return false;
    if ((guest->answer & 15) == WAIT) {
        guest->refused = guest_poll(guest, guest->answer >> 4, &event, told);
        if (guest->refused == STRM_DONE && event == EVENT_NONE) return false;
    }
    go_on(guest, guest->refused == STRM_DONE &&
                     guest->engine->callback(guest, event, told[0], told[1], &guest->answer));
    return true;
}
