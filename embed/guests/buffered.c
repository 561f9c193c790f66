#include "buffered.h"

#include <string.h>

/* Behind the buffers there is room for the message of an error context. */
enum { MESSAGE = 4096, SIZE = BUFFERS * BUFFER + MESSAGE };

strm_status buffered_new(
    buffered_guest *made, embedder *embedder, const engine *engine, uint8_t *(*memory)(guest *guest, size_t *len)) {
    *made = (buffered_guest){.base = {.engine = engine, .embedder = embedder, .number = GUEST_NONE}, .memory = memory};
    strm_status status = guest_begin(&made->base, NULL, SIZE);
    if (status != STRM_DONE) return status;
    status = strm_set_guest_limits(&embedder->store, made->base.number, UINT32_MAX, BUFFERED_ENDS, UINT64_MAX);
    if (status != STRM_DONE) guest_end(&made->base, GUEST_TRAPPED);
    return status;
}

/* PLACES */

typedef struct {
    uint32_t size, align;
} layout;

static uint32_t rounded(uint32_t size, uint32_t align) { return (size + align - 1) / align * align; }

/* How the Canonical ABI lays out the items of a payload. */
static layout layout_of(strm_payload payload) {
    static const uint8_t sizes[] = {0, 1, 1, 1, 2, 2, 4, 4, 8, 8, 4};
    layout of = {0, 1};
    for (uint32_t fields = (uint32_t)payload; fields != 0; fields >>= 4) {
        uint32_t size = sizes[fields & 15];
        of.size = rounded(of.size, size) + size;
        if (of.align < size) of.align = size;
    }
    of.size = rounded(of.size, of.align);
    return of;
}

/* Where a region of the engine's memory lies; NULL where it passes the end. */
static uint8_t *region(buffered_guest *guest, uint32_t address, uint64_t len) {
    static uint8_t nothing[1];
    size_t size = 0;
    uint8_t *memory = guest->memory(&guest->base, &size);
    if (address > size || len > size - address) return NULL;
    return size == 0 ? nothing : memory + address;
}

/* Where a buffer lies in the store's memory. */
static uint32_t place_of(const buffered_guest *guest, const buffered_operation *operation) {
    return (uint32_t)(operation - guest->operations) * BUFFER;
}

/* READS AND WRITES UNDER WAY */

/* The one of a handle, or a free one of handle 0; NULL where there is none. */
static buffered_operation *operation_of(buffered_guest *guest, uint32_t handle) {
    for (int k = 0; k < BUFFERS; k++)
        if (guest->operations[k].handle == handle) return &guest->operations[k];
    return NULL;
}

/* Tests where the items lie, and cuts their count to what a buffer has room for. */
static strm_status prepare(buffered_guest *guest, strm_type type, uint32_t address, uint32_t *count) {
    layout items = layout_of(type & ~STRM_FUTURE);
    if (*count >> 28 != 0) return STRM_STREAM_OP_TOO_BIG;
    if (region(guest, address, (uint64_t)items.size * *count) == NULL) return STRM_OUT_OF_BOUNDS;
    if (address % items.align != 0) return STRM_NOT_ALIGNED;
    if (items.size > 0 && *count > BUFFER / items.size) *count = BUFFER / items.size;
    return STRM_DONE;
}

/* It is over: what was read is copied out. */
static void settle(buffered_guest *guest, buffered_operation *operation, uint32_t code) {
    layout items = layout_of(operation->type & ~STRM_FUTURE);
    uint32_t count = operation->type & STRM_FUTURE ? STRM_RESULT(code) == STRM_COMPLETED : STRM_COUNT(code);
    uint8_t *at = region(guest, operation->address, (uint64_t)items.size * count);
    uint32_t len = items.size * count, from = place_of(guest, operation);
    if (operation->reads && at != NULL)
        (void)!strm_memory_read(&guest->base.embedder->store, guest->base.number, from, at, len);
    operation->handle = 0;
}

void buffered_settle(guest *guest, uint32_t handle, uint32_t code) {
    buffered_guest *buffered = (buffered_guest *)guest;
    buffered_operation *operation = operation_of(buffered, handle);
    if (operation != NULL) settle(buffered, operation, code);
}

/* It was answered: it is over, or waits. */
static strm_status answered(buffered_guest *guest, buffered_operation *operation, buffered_operation begun,
                            strm_status status, const uint32_t *code) {
    if (status != STRM_DONE) return status;
    *operation = begun;
    if (*code != STRM_BLOCKED) settle(guest, operation, *code);
    return status;
}

static strm_status read_into(
    buffered_guest *guest, strm_type type, uint32_t handle, uint32_t at, uint32_t count, uint32_t *code) {
    strm_store *store = &guest->base.embedder->store;
    uint32_t number = guest->base.number;
    return type & STRM_FUTURE ? strm_future_read(store, number, type & ~STRM_FUTURE, handle, at, code)
                              : strm_stream_read(store, number, type, handle, at, count, code);
}

strm_status buffered_read(
    buffered_guest *guest, strm_type type, uint32_t handle, uint32_t address, uint32_t count, uint32_t *code) {
    buffered_operation *operation = operation_of(guest, 0);
    uint32_t at = place_of(guest, operation);
    strm_status status = prepare(guest, type, address, &count);
    if (status != STRM_DONE) return status;
    status = read_into(guest, type, handle, at, count, code);
    if (status == STRM_BAD_ITEM && guest_stop_writer(&guest->base, type, handle, at, count))
        status = read_into(guest, type, handle, at, count, code);
    return answered(guest, operation, (buffered_operation){handle, address, type, true}, status, code);
}

strm_status buffered_write(
    buffered_guest *guest, strm_type type, uint32_t handle, uint32_t address, uint32_t count, uint32_t *code) {
    strm_store *store = &guest->base.embedder->store;
    buffered_operation *operation = operation_of(guest, 0);
    uint32_t number = guest->base.number, at = place_of(guest, operation);
    strm_status status = prepare(guest, type, address, &count);
    if (status != STRM_DONE) return status;
    uint32_t len = layout_of(type & ~STRM_FUTURE).size * count;
    status = strm_memory_write(store, number, at, region(guest, address, len), len);
    if (status != STRM_DONE) return status;
    status = type & STRM_FUTURE ? strm_future_write(store, number, type & ~STRM_FUTURE, handle, at, code)
                                : strm_stream_write(store, number, type, handle, at, count, code);
    return answered(guest, operation, (buffered_operation){handle, address, type, false}, status, code);
}

strm_status buffered_cancel_read(buffered_guest *guest, strm_type type, uint32_t handle, uint32_t *code) {
    strm_store *store = &guest->base.embedder->store;
    uint32_t number = guest->base.number;
    strm_status status = type & STRM_FUTURE ? strm_future_cancel_read(store, number, type & ~STRM_FUTURE, handle, code)
                                            : strm_stream_cancel_read(store, number, type, handle, code);
    if (status == STRM_DONE) buffered_settle(&guest->base, handle, *code);
    return status;
}

strm_status buffered_cancel_write(buffered_guest *guest, strm_type type, uint32_t handle, uint32_t *code) {
    strm_store *store = &guest->base.embedder->store;
    uint32_t number = guest->base.number;
    strm_status status = type & STRM_FUTURE ? strm_future_cancel_write(store, number, type & ~STRM_FUTURE, handle, code)
                                            : strm_stream_cancel_write(store, number, type, handle, code);
    if (status == STRM_DONE) buffered_settle(&guest->base, handle, *code);
    return status;
}

/* OTHERS THAT NAME A PLACE */

/* The place is tested before an event is taken. */
strm_status buffered_poll(buffered_guest *guest, uint32_t set, uint32_t address, uint32_t *event) {
    uint32_t told[2];
    uint8_t *at = region(guest, address, sizeof told);
    if (at == NULL) return STRM_OUT_OF_BOUNDS;
    strm_status status = guest_poll(&guest->base, set, event, told);
    if (status == STRM_DONE) memcpy(at, told, sizeof told);
    return status;
}

strm_status buffered_error_context_new(buffered_guest *guest, uint32_t address, uint32_t len, uint32_t *handle) {
    strm_store *store = &guest->base.embedder->store;
    uint32_t number = guest->base.number, message = BUFFERS * BUFFER;
    if (len > MESSAGE) return STRM_MESSAGE_TOO_LONG;
    uint8_t *at = region(guest, address, len);
    if (at == NULL) return STRM_OUT_OF_BOUNDS;
    strm_status status = strm_memory_write(store, number, message, at, len);
    return status != STRM_DONE ? status : strm_error_context_new(store, number, message, len, handle);
}
