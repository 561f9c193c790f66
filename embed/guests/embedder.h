/* A small embedder of WebAssembly guests that share streams, for any engine: it is taken as it is.

   A guest is run as an async function with a callback: `run`, and then `callback` for each event of the set that it
   waits for. Once it ends or traps the store has nothing of it any more: the other guests are told, its memory is its
   engine's again and may go at once, and its number is the next guest's. How a guest is entered is its engine's:
   wasm2c.h has one that lends its memories, and buffered.h what an engine needs that keeps them to itself. */
#ifndef EMBEDDER_H
#define EMBEDDER_H
#include <stdbool.h>
#include <stdint.h>

#include "strm.h"
#ifdef __cplusplus
extern "C" {
#endif

typedef struct guest guest;

/* A store, and who has each number of its guests: NULL where none does, since it ended. All guests of the store are
   begun by guest_begin. It begins with 0 in all, and then with strm_store_new. */
typedef struct {
    strm_store store;
    guest **guests;
    uint32_t count;
} embedder;

/* What an engine does. The first two enter a guest, put what it answers at `answer`, and tell whether it came back,
   as one that traps does not. The third, which may be NULL, hears of each event that a guest gets, and before it. */
typedef struct {
    bool (*run)(guest *guest, uint32_t in, uint32_t out, uint32_t size, uint32_t *answer);
    bool (*callback)(guest *guest, uint32_t event, uint32_t handle, uint32_t code, uint32_t *answer);
    void (*settle)(guest *guest, uint32_t handle, uint32_t code);
} engine;

typedef enum { GUEST_RUNS, GUEST_ENDED, GUEST_TRAPPED } guest_state;

/* The number of a guest that has not begun, or has ended: each call of the store with it is refused. */
#define GUEST_NONE 0xffffffffu

/* A guest begins with its engine, its embedder, GUEST_NONE for its number, and 0 in all else. */
struct guest {
    const engine *engine;
    embedder *embedder;
    uint32_t number;
    /* What it said last: how it goes on. */
    uint32_t answer;
    guest_state state;
    /* Why it trapped, if a refusal did it; STRM_BAD_ITEM of one that was stopped since it wrote such an item. */
    strm_status refused;
};

/* Begins a guest under a number that is free: its memory is these bytes, which are lent to the store until it ends, or
   where they are NULL so many zero bytes of the store's own. The limits that were set of the number stay. */
strm_status guest_begin(guest *guest, uint8_t *bytes, size_t len);

/* Calls `run`, with an end to read and one to write, 0 for none. */
void guest_run(guest *guest, uint32_t in, uint32_t out, uint32_t size);

/* Gives the guest a turn, if it has one: it asked for it, or its set has an event. */
bool guest_turn(guest *guest);

/* Ends a guest, which is not entered any more: what it had under way is cancelled, what it had moved stays moved, and
   from here on its memory may go. It is done as soon as a guest ends or traps; an embedder does it too to stop one.
   Of one that has not begun, or has ended, it does nothing. */
void guest_end(guest *guest, guest_state state);

/* Of a read that was answered STRM_BAD_ITEM, with its arguments: the guest that writes the item ends. Whether there is
   such a guest, so that the read can be made again. */
bool guest_stop_writer(guest *reader, strm_type type, uint32_t handle, uint32_t address, uint32_t count);

/* `waitable-set.poll` of a guest: an event's code, and where there is one the end's handle and what it is told. */
strm_status guest_poll(guest *guest, uint32_t set, uint32_t *event, uint32_t told[2]);

/* Ends all guests, and gives up the store. */
void embedder_free(embedder *embedder);

#ifdef __cplusplus
}
#endif
#endif
