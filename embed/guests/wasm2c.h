/* Modules that wasm2c made into C, as guests: each module's own memory is wabt's, is lent to the store, and grows. So
   nothing is copied on the way. It is taken as it is, with wabt 1.0.32 or 1.0.36.

   What wasm2c made is compiled with `-include wasm2c.h`, and all of it with `-isystem` of wabt's folder of
   wasm-rt-impl.c. A program includes the headers that wasm2c made, names each module by WASM2C_MODULE, and each type
   of stream or future that they import by CANON_STREAM or CANON_FUTURE. A guest imports from "canon" alone; what is
   refused there traps it, as a runtime's does, and nothing else. */
#ifndef WASM2C_H
#define WASM2C_H
#include "embedder.h"

#ifdef WASM_RT_H_
#error "wasm2c.h comes before wasm-rt.h"
#endif

/* With 1, a memory has the addresses of all to which it may grow, and grows where it lies; what is not touched is not
   there. With 0 it is a block of malloc's, and a longer one each time it grows. All of a program has the same. */
#ifndef WASM2C_MAPPED
#define WASM2C_MAPPED 1
#endif

/* Each access is tested against its memory's size. wabt 1.0.32 has one word for this and for how memories are made,
   which wasm2c.c takes apart. */
#define WASM_RT_MEMCHECK_BOUNDS_CHECK 1
#if __has_include(<wasm-rt-mem-impl.c>)
#define WASM2C_LATER
#define WASM_RT_USE_MMAP WASM2C_MAPPED
#else
#define WASM_RT_MEMCHECK_SIGNAL_HANDLER 0
#endif

/* Memories are made, grown and given up by wasm2c.c, which tells the store. What was compiled without this header
   does not link. */
#define wasm_rt_allocate_memory wasm2c_allocate_memory
#define wasm_rt_grow_memory wasm2c_grow_memory
#define wasm_rt_free_memory wasm2c_free_memory
#include <wasm-rt.h>

/* How wasm2c names what a module has, and the built-ins of ends and the others that it imports. */
#ifdef WASM2C_LATER
#define WASM2C_INSTANCE(module) w2c_##module
#define WASM2C_INSTANTIATE(module) wasm2c_##module##_instantiate
#define WASM2C_INIT(module) ((void)0)
#define WASM2C_FREE(module) wasm2c_##module##_free
#define WASM2C_EXPORT(module, name) w2c_##module##_##name
#define WASM2C_IMPORTS w2c_canon
#define CANON(a, b) w2c_canon_##a##0x2E##b
#define CANON_SET(b) w2c_canon_waitable0x2Dset0x2E##b
#define CANON_CONTEXT(b) w2c_canon_error0x2Dcontext0x2E##b
#define CANON_END(kind, T, a) w2c_canon_##kind##0x3C##T##0x3E0x2E##a
#define CANON_SIDE(kind, T, a, b) w2c_canon_##kind##0x3C##T##0x3E0x2E##a##0x2D##b
#else
#define WASM2C_INSTANCE(module) Z_##module##_instance_t
#define WASM2C_INSTANTIATE(module) Z_##module##_instantiate
#define WASM2C_INIT(module) Z_##module##_init_module()
#define WASM2C_FREE(module) Z_##module##_free
#define WASM2C_EXPORT(module, name) Z_##module##Z_##name
#define WASM2C_IMPORTS Z_canon_instance_t
#define CANON(a, b) Z_canonZ_##a##Z2E##b
#define CANON_SET(b) Z_canonZ_waitableZ2DsetZ2E##b
#define CANON_CONTEXT(b) Z_canonZ_errorZ2DcontextZ2E##b
#define CANON_END(kind, T, a) Z_canonZ_##kind##Z3C##T##Z3EZ2E##a
#define CANON_SIDE(kind, T, a, b) Z_canonZ_##kind##Z3C##T##Z3EZ2E##a##Z2D##b
#endif

/* How a module is made and run. */
typedef struct WASM2C_IMPORTS wasm2c_guest;
typedef struct {
    size_t instance_size;
    void (*instantiate)(void *instance, wasm2c_guest *guest);
    void (*free)(void *instance);
    uint32_t (*run)(void *instance, uint32_t in, uint32_t out, uint32_t size);
    uint32_t (*callback)(void *instance, uint32_t event, uint32_t handle, uint32_t code);
} wasm2c_module;

/* A guest, as its imports are handed it. */
struct WASM2C_IMPORTS {
    guest base;
    const wasm2c_module *module;
    void *instance;
    /* The module's, NULL of one that has none. */
    wasm_rt_memory_t *memory;
};

/* Makes a module and begins a guest of it, whose memory is lent to the store; NULL where there is no room for it, or it
   traps as it is made, as it does where it calls a built-in before it is a guest. */
wasm2c_guest *wasm2c_new(embedder *embedder, const wasm2c_module *module);

/* Gives up a guest with its module and its memory, at any time but while it is entered: it ends before, if it runs. */
void wasm2c_free(wasm2c_guest *guest);

/* Calls a function of a guest's module, which is handed the instance: whether it came back. One that may trap, or have
   the memory grow, is called in no other way. */
bool wasm2c_enter(wasm2c_guest *guest, void (*call)(void *instance, void *with), void *with);

/* A module by the name that `wasm2c -n` gave it. Of one that is called in another way than by `run` and `callback`
   the second is to be taken. */
#define WASM2C_MODULE(name)                                                                          \
    static uint32_t name##_run(void *instance, uint32_t in, uint32_t out, uint32_t size) {           \
        return WASM2C_EXPORT(name, run)(instance, in, out, size);                                    \
    }                                                                                                \
    static uint32_t name##_callback(void *instance, uint32_t event, uint32_t handle, uint32_t code) { \
        return WASM2C_EXPORT(name, callback)(instance, event, handle, code);                         \
    }                                                                                                \
    WASM2C_OTHER_MODULE(name, name##_run, name##_callback)
#define WASM2C_OTHER_MODULE(name, run, callback)                                                     \
    static void name##_instantiate(void *instance, wasm2c_guest *guest) {                            \
        WASM2C_INIT(name);                                                                           \
        WASM2C_INSTANTIATE(name)(instance, guest);                                                   \
    }                                                                                                \
    static void name##_free(void *instance) { WASM2C_FREE(name)(instance); }                         \
    static const wasm2c_module name = {                                                              \
        sizeof(WASM2C_INSTANCE(name)), name##_instantiate, name##_free, run, callback};

/* The built-ins of streams, or of futures, of T, whose items are of that payload. */
#define CANON_STREAM(T, payload)                                                                                   \
    CANON_ENDS(stream, T, payload)                                                                                 \
    uint32_t CANON_END(stream, T, read)(wasm2c_guest * g, uint32_t handle, uint32_t at, uint32_t count) {          \
        WASM2C_READ(strm_stream_read, payload, payload, count, handle, at, count);                                 \
    }                                                                                                              \
    uint32_t CANON_END(stream, T, write)(wasm2c_guest * g, uint32_t handle, uint32_t at, uint32_t count) {         \
        WASM2C_CODE(strm_stream_write, payload, handle, at, count);                                                \
    }
#define CANON_FUTURE(T, payload)                                                                                   \
    CANON_ENDS(future, T, payload)                                                                                 \
    uint32_t CANON_END(future, T, read)(wasm2c_guest * g, uint32_t handle, uint32_t at) {                          \
        WASM2C_READ(strm_future_read, (payload) | STRM_FUTURE, payload, 1, handle, at);                            \
    }                                                                                                              \
    uint32_t CANON_END(future, T, write)(wasm2c_guest * g, uint32_t handle, uint32_t at) {                         \
        WASM2C_CODE(strm_future_write, payload, handle, at);                                                       \
    }
#define CANON_ENDS(kind, T, payload)                                                                               \
    uint64_t CANON_END(kind, T, new)(wasm2c_guest * g) {                                                           \
        strm_pair pair = {0, 0, 0};                                                                                \
        wasm2c_must(g, strm_##kind##_new(&g->base.embedder->store, g->base.number, payload, &pair));               \
        return pair.read | (uint64_t)pair.write << 32;                                                             \
    }                                                                                                              \
    uint32_t CANON_SIDE(kind, T, cancel, read)(wasm2c_guest * g, uint32_t handle) {                                \
        WASM2C_CODE(strm_##kind##_cancel_read, payload, handle);                                                   \
    }                                                                                                              \
    uint32_t CANON_SIDE(kind, T, cancel, write)(wasm2c_guest * g, uint32_t handle) {                               \
        WASM2C_CODE(strm_##kind##_cancel_write, payload, handle);                                                  \
    }                                                                                                              \
    void CANON_SIDE(kind, T, drop, readable)(wasm2c_guest * g, uint32_t handle) {                                  \
        wasm2c_must(g, strm_##kind##_drop_readable(&g->base.embedder->store, g->base.number, payload, handle));    \
    }                                                                                                              \
    void CANON_SIDE(kind, T, drop, writable)(wasm2c_guest * g, uint32_t handle) {                                  \
        wasm2c_must(g, strm_##kind##_drop_writable(&g->base.embedder->store, g->base.number, payload, handle));    \
    }
#define WASM2C_CODE(call, ...)                                                                                     \
    uint32_t code = 0;                                                                                             \
    wasm2c_must(g, call(&g->base.embedder->store, g->base.number, __VA_ARGS__, &code));                            \
    return code

#define WASM2C_READ(call, type, payload, count, ...)                                                               \
    uint32_t code = 0;                                                                                             \
    strm_status status = call(&g->base.embedder->store, g->base.number, payload, __VA_ARGS__, &code);              \
    if (status == STRM_BAD_ITEM && guest_stop_writer(&g->base, type, handle, at, count))                           \
        status = call(&g->base.embedder->store, g->base.number, payload, __VA_ARGS__, &code);                      \
    wasm2c_must(g, status);                                                                                        \
    return code

/* The other built-ins, which wasm2c.c has; a program that includes a module's header holds them to what it calls. */
uint32_t CANON_SET(new)(wasm2c_guest *g);
uint32_t CANON_SET(poll)(wasm2c_guest *g, uint32_t set, uint32_t at);
void CANON_SET(drop)(wasm2c_guest *g, uint32_t set);
void CANON(waitable, join)(wasm2c_guest *g, uint32_t handle, uint32_t set);
uint32_t CANON_CONTEXT(new)(wasm2c_guest *g, uint32_t at, uint32_t len);
void CANON_CONTEXT(drop)(wasm2c_guest *g, uint32_t handle);

/* Traps the guest unless it is done: control goes back to where it was entered. */
void wasm2c_must(wasm2c_guest *guest, strm_status status);
#endif
