/* The same calls over plain copies: nothing is tested, and only what a line of guests asks for is there. It
   is what the figures of the guests are compared with. */
#include <stdlib.h>
#include <string.h>

#include "strm.h"

enum { GUESTS = 4, STREAMS = 4, HANDLES = 16 };
enum { WRITING, READING };

typedef struct {
    uint32_t guest, handle, address, left, moved;
    bool waits, met, gone;
} end;

typedef struct {
    end ends[2];
    uint64_t received;
} stream;

typedef struct {
    uint8_t *memory;
    size_t len;
    struct {
        uint8_t stream, side, set;
    } handles[HANDLES];
    uint32_t count;
} guest;

typedef struct {
    guest guests[GUESTS];
    stream streams[STREAMS];
    uint32_t guest_count, stream_count;
} plain;

strm_status strm_store_new(strm_store *store, uint64_t tag, size_t handles, uint32_t places) {
    (void)tag, (void)handles, (void)places;
    store->at = calloc(1, sizeof(plain));
    return STRM_DONE;
}

void strm_store_free(strm_store *store) {
    free(store->at);
    store->at = NULL;
}

strm_status strm_add_guest(strm_store *store, uint32_t size, uint32_t *out) {
    (void)size;
    *out = ((plain *)store->at)->guest_count++;
    return STRM_DONE;
}

strm_status strm_begin_guest_at(strm_store *store, uint32_t number, uint8_t *bytes, size_t len) {
    guest *guest = &((plain *)store->at)->guests[number];
    guest->memory = bytes;
    guest->len = len;
    guest->count = 1;
    return STRM_DONE;
}

/* Guests of a line drop their ends themselves. */
strm_status strm_end_guest(strm_store *store, uint32_t number) {
    (void)store, (void)number;
    return STRM_DONE;
}

strm_status strm_memory_at(strm_store *store, uint32_t number, uint8_t **out, size_t *len) {
    guest *guest = &((plain *)store->at)->guests[number];
    *out = guest->memory;
    *len = guest->len;
    return STRM_DONE;
}

strm_status strm_new_between(strm_store *store, uint32_t writer, uint32_t reader, strm_type type, strm_pair *out) {
    plain *plain = store->at;
    (void)type;
    out->stream = plain->stream_count++;
    out->read = plain->guests[reader].count++;
    out->write = plain->guests[writer].count++;
    plain->guests[reader].handles[out->read].stream = plain->guests[writer].handles[out->write].stream = out->stream;
    plain->guests[reader].handles[out->read].side = READING;
    plain->guests[writer].handles[out->write].side = WRITING;
    return STRM_DONE;
}

uint32_t strm_streams(const strm_store *store) { return ((plain *)store->at)->stream_count; }

strm_status strm_moved(const strm_store *store, uint32_t number, strm_count *out) {
    out->low = ((plain *)store->at)->streams[number].received;
    out->high = 0;
    return STRM_DONE;
}

static strm_status operate(plain *plain, int side, uint32_t number, uint32_t handle, uint32_t address, uint32_t count, uint32_t *out) {
    stream *stream = &plain->streams[plain->guests[number].handles[handle].stream];
    end *mine = &stream->ends[side], *other = &stream->ends[!side];
    uint32_t moved = count < other->left ? count : other->left;
    if (other->gone) {
        *out = 1;
        return STRM_DONE;
    }
    if (!other->waits || other->left == 0) {
        *mine = (end){number, handle, address, count, 0, true, false, false};
        *out = STRM_BLOCKED;
        return STRM_DONE;
    }
    uint8_t *here = plain->guests[number].memory + address, *there = plain->guests[other->guest].memory + other->address;
    memcpy(side == WRITING ? there : here, side == WRITING ? here : there, moved);
    other->address += moved;
    other->left -= moved;
    other->moved += moved;
    other->met = true;
    stream->received += moved;
    *out = moved << 4;
    return STRM_DONE;
}

strm_status strm_stream_write(strm_store *store, uint32_t number, strm_payload payload, uint32_t handle, uint32_t address, uint32_t count, uint32_t *out) {
    (void)payload;
    return operate(store->at, WRITING, number, handle, address, count, out);
}

strm_status strm_stream_read(strm_store *store, uint32_t number, strm_payload payload, uint32_t handle, uint32_t address, uint32_t count, uint32_t *out) {
    (void)payload;
    return operate(store->at, READING, number, handle, address, count, out);
}

strm_status strm_set_new(strm_store *store, uint32_t number, uint32_t *out) {
    *out = ((plain *)store->at)->guests[number].count++;
    return STRM_DONE;
}

strm_status strm_set_join(strm_store *store, uint32_t number, uint32_t set, uint32_t handle) {
    ((plain *)store->at)->guests[number].handles[handle].set = (uint8_t)set;
    return STRM_DONE;
}

strm_status strm_set_poll(strm_store *store, uint32_t number, uint32_t set, strm_member *out) {
    plain *plain = store->at;
    guest *guest = &plain->guests[number];
    out->code = STRM_NO_EVENT;
    for (uint32_t handle = 1; handle < guest->count; handle++) {
        if (guest->handles[handle].set != set) continue;
        stream *stream = &plain->streams[guest->handles[handle].stream];
        end *mine = &stream->ends[guest->handles[handle].side], *other = &stream->ends[!guest->handles[handle].side];
        if (!mine->waits || !(mine->met || other->gone)) continue;
        out->handle = handle;
        out->code = mine->moved << 4 | other->gone;
        mine->waits = mine->met = false;
        mine->left = 0;
        break;
    }
    return STRM_DONE;
}

strm_status strm_handle_info(const strm_store *store, uint32_t number, uint32_t handle, strm_handle *out) {
    uint8_t side = ((plain *)store->at)->guests[number].handles[handle].side;
    out->type = STRM_U8;
    out->side = side == READING ? STRM_SIDE_READING : STRM_SIDE_WRITING;
    return STRM_DONE;
}

static strm_status drop(plain *plain, int side, uint32_t number, uint32_t handle) {
    plain->streams[plain->guests[number].handles[handle].stream].ends[side].gone = true;
    plain->guests[number].handles[handle].set = 0;
    return STRM_DONE;
}

strm_status strm_stream_drop_readable(strm_store *store, uint32_t number, strm_payload payload, uint32_t handle) {
    (void)payload;
    return drop(store->at, READING, number, handle);
}

strm_status strm_stream_drop_writable(strm_store *store, uint32_t number, strm_payload payload, uint32_t handle) {
    (void)payload;
    return drop(store->at, WRITING, number, handle);
}

/* What no line of guests asks for. */
#define ABSENT(name, ...)                 \
    strm_status name(__VA_ARGS__) {       \
        return STRM_UNKNOWN_HANDLE;       \
    }
#pragma GCC diagnostic ignored "-Wunused-parameter"
ABSENT(strm_begin_guest, strm_store *s, uint32_t g, uint32_t z)
ABSENT(strm_memory_grown, strm_store *s, uint32_t g, uint8_t *m, size_t l)
ABSENT(strm_memory_moved, strm_store *s, uint32_t g, uint8_t *b, size_t l)
ABSENT(strm_memory_read, const strm_store *s, uint32_t g, uint32_t a, uint8_t *o, size_t l)
ABSENT(strm_memory_write, strm_store *s, uint32_t g, uint32_t a, const uint8_t *o, size_t l)
ABSENT(strm_stream_new, strm_store *s, uint32_t g, strm_payload p, strm_pair *o)
ABSENT(strm_future_new, strm_store *s, uint32_t g, strm_payload p, strm_pair *o)
ABSENT(strm_stream_cancel_read, strm_store *s, uint32_t g, strm_payload p, uint32_t h, uint32_t *o)
ABSENT(strm_stream_cancel_write, strm_store *s, uint32_t g, strm_payload p, uint32_t h, uint32_t *o)
ABSENT(strm_future_cancel_read, strm_store *s, uint32_t g, strm_payload p, uint32_t h, uint32_t *o)
ABSENT(strm_future_cancel_write, strm_store *s, uint32_t g, strm_payload p, uint32_t h, uint32_t *o)
ABSENT(strm_future_read, strm_store *s, uint32_t g, strm_payload p, uint32_t h, uint32_t a, uint32_t *o)
ABSENT(strm_future_write, strm_store *s, uint32_t g, strm_payload p, uint32_t h, uint32_t a, uint32_t *o)
ABSENT(strm_future_drop_readable, strm_store *s, uint32_t g, strm_payload p, uint32_t h)
ABSENT(strm_future_drop_writable, strm_store *s, uint32_t g, strm_payload p, uint32_t h)
ABSENT(strm_find_bad_item, const strm_store *s, uint32_t w, uint32_t g, strm_type t, uint32_t h, uint32_t a, uint32_t c, strm_bad_item *o)
ABSENT(strm_next_ready_guest, strm_store *s, uint32_t f, uint32_t *o)
ABSENT(strm_set_drop, strm_store *s, uint32_t g, uint32_t h)
ABSENT(strm_error_context_new, strm_store *s, uint32_t g, uint32_t a, uint32_t l, uint32_t *o)
ABSENT(strm_error_context_drop, strm_store *s, uint32_t g, uint32_t h)
