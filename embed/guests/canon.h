/* What a guest calls: the built-ins of the Canonical ABI under its names, and the codes by which an async function
   that has a callback says how it goes on. */
#include <stdint.h>

#define IMPORT(name) __attribute__((import_module("canon"), import_name(name)))
#define EXPORT(name) __attribute__((export_name(name)))

/* The built-ins of streams, or of futures, of T: a name that guest and embedder agree on, as u8. The new one's
   handles are the read end's in the low half, and the write end's in the high one. */
#define ENDS_OF(kind, T)                                                                    \
    IMPORT(#kind "<" #T ">.new") uint64_t kind##_##T##_new(void);                           \
    IMPORT(#kind "<" #T ">.cancel-read") uint32_t kind##_##T##_cancel_read(uint32_t);       \
    IMPORT(#kind "<" #T ">.cancel-write") uint32_t kind##_##T##_cancel_write(uint32_t);     \
    IMPORT(#kind "<" #T ">.drop-readable") void kind##_##T##_drop_readable(uint32_t);       \
    IMPORT(#kind "<" #T ">.drop-writable") void kind##_##T##_drop_writable(uint32_t);
#define STREAM_OF(T)                                                                                            \
    ENDS_OF(stream, T)                                                                                          \
    IMPORT("stream<" #T ">.read") uint32_t stream_##T##_read(uint32_t handle, void *at, uint32_t count);        \
    IMPORT("stream<" #T ">.write") uint32_t stream_##T##_write(uint32_t handle, const void *at, uint32_t count);
#define FUTURE_OF(T)                                                                          \
    ENDS_OF(future, T)                                                                        \
    IMPORT("future<" #T ">.read") uint32_t future_##T##_read(uint32_t handle, void *at);      \
    IMPORT("future<" #T ">.write") uint32_t future_##T##_write(uint32_t handle, const void *at);

IMPORT("waitable-set.new") uint32_t waitable_set_new(void);
IMPORT("waitable.join") void waitable_join(uint32_t handle, uint32_t set);
/* Answers the event's code, and puts the end's handle and what it is told at `at`. */
IMPORT("waitable-set.poll") uint32_t waitable_set_poll(uint32_t set, uint32_t *at);
IMPORT("waitable-set.drop") void waitable_set_drop(uint32_t set);
IMPORT("error-context.new") uint32_t error_context_new(const void *at, uint32_t len);
IMPORT("error-context.drop") void error_context_drop(uint32_t handle);

/* What a read, a write or an event tells. */
#define BLOCKED 0xffffffffu
#define RESULT(code) ((code) & 15)
#define COUNT(code) ((code) >> 4)
enum { COMPLETED, DROPPED, CANCELLED };

/* Events. */
enum { EVENT_NONE, EVENT_SUBTASK, EVENT_STREAM_READ, EVENT_STREAM_WRITE, EVENT_FUTURE_READ, EVENT_FUTURE_WRITE };

/* How a function or its callback goes on: done, called again at once, or when a set has an event. */
enum { EXIT, YIELD, WAIT };
#define WAIT_FOR(set) (WAIT | (set) << 4)
