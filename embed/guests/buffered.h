/* What an engine needs that keeps the memories of its guests to itself. The store's memory of a guest is then a row
   of buffers, one for each end that has a read or write under way: a write copies its items into one, and a read's
   are copied out once it is answered or told. It is taken as it is.

   A read or write moves no more items than a buffer has room for; a guest goes on with the rest, as after any that
   moved fewer. What a write hands over are its items as they were when it was called. */
#ifndef BUFFERED_H
#define BUFFERED_H
#include "embedder.h"
#ifdef __cplusplus
extern "C" {
#endif

/* How many ends a guest may have, and how many bytes each can move at once. There is a buffer more than ends, so that
   one is always free. */
enum { BUFFERED_ENDS = 32, BUFFERS, BUFFER = 16384 };

/* A read or write under way: of which end, of what type, and where its items lie in the engine's memory. */
typedef struct {
    uint32_t handle;
    uint32_t address;
    strm_type type;
    bool reads;
} buffered_operation;

typedef struct {
    guest base;
    /* Tells where the engine's memory of the guest lies now, and how long it is. */
    uint8_t *(*memory)(guest *guest, size_t *len);
    /* Those of which the handle is not 0 are under way, each in the buffer of its place. */
    buffered_operation operations[BUFFERS];
} buffered_guest;

/* Begins a guest, which ends by guest_end. The engine's `settle` is buffered_settle. */
strm_status buffered_new(
    buffered_guest *made, embedder *embedder, const engine *engine, uint8_t *(*memory)(guest *guest, size_t *len));

/* The built-ins that name places in a guest's memory, or end a read or write. The payload is one that strm.h has;
   a future's count is 1. */
strm_status buffered_read(
    buffered_guest *guest, strm_type type, uint32_t handle, uint32_t address, uint32_t count, uint32_t *code);
strm_status buffered_write(
    buffered_guest *guest, strm_type type, uint32_t handle, uint32_t address, uint32_t count, uint32_t *code);
strm_status buffered_cancel_read(buffered_guest *guest, strm_type type, uint32_t handle, uint32_t *code);
strm_status buffered_cancel_write(buffered_guest *guest, strm_type type, uint32_t handle, uint32_t *code);
strm_status buffered_poll(buffered_guest *guest, uint32_t set, uint32_t address, uint32_t *event);
strm_status buffered_error_context_new(buffered_guest *guest, uint32_t address, uint32_t len, uint32_t *handle);

/* The read or write that an event ended: what was read is copied out. */
void buffered_settle(guest *guest, uint32_t handle, uint32_t code);

#ifdef __cplusplus
}
#endif
#endif
