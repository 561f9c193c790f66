#include "wasm2c.h"

#include <setjmp.h>
#include <stdlib.h>
#include <string.h>

/* wabt's runtime, which leads traps here. Its memories go by other names, and where there is no room for one it traps,
   as it would else end the program. */
#undef wasm_rt_allocate_memory
#undef wasm_rt_grow_memory
#undef wasm_rt_free_memory
#define wasm_rt_allocate_memory wabt_allocate_memory
#define wasm_rt_grow_memory wabt_grow_memory
#define wasm_rt_free_memory wabt_free_memory
#define wasm_rt_allocate_memory_shared wabt_allocate_memory_shared
#define wasm_rt_grow_memory_shared wabt_grow_memory_shared
#define wasm_rt_free_memory_shared wabt_free_memory_shared
#define WASM_RT_TRAP_HANDLER wasm2c_trapped
void wasm2c_trapped(wasm_rt_trap_t code);
#include <wasm-rt-impl.h>
#define abort() wasm_rt_trap(WASM_RT_TRAP_OOB)
#ifdef WASM2C_LATER
#include <wasm-rt-impl.c>
#include <wasm-rt-mem-impl.c>
#else
#undef WASM_RT_MEMCHECK_SIGNAL_HANDLER
#undef WASM_RT_SKIP_SIGNAL_RECOVERY
#define WASM_RT_MEMCHECK_SIGNAL_HANDLER WASM2C_MAPPED
#define WASM_RT_SKIP_SIGNAL_RECOVERY 1
#include <wasm-rt-impl.c>
#endif
#undef abort

/* TRAPS */

/* The guest that runs on this thread, and where it was entered. None is entered from within another. */
static _Thread_local wasm2c_guest *running;
static _Thread_local jmp_buf *entered;

void wasm2c_trapped(wasm_rt_trap_t code) { longjmp(*entered, code); }

bool wasm2c_enter(wasm2c_guest *guest, void (*call)(void *instance, void *with), void *with) {
    jmp_buf here;
    running = guest;
    entered = &here;
    if (setjmp(here) != 0) {
        running = NULL;
        return false;
    }
    call(guest->instance, with);
    running = NULL;
    return true;
}

void wasm2c_must(wasm2c_guest *guest, strm_status status) {
    if (status == STRM_DONE) return;
    guest->base.refused = status;
    wasm_rt_trap(WASM_RT_TRAP_UNREACHABLE);
}

/* MEMORIES. A guest's is lent to the store from when its module is made until the guest ends, and the store is told of
   all that becomes of it before the guest goes on. */

/* A store takes fewer than 2^32 bytes. */
#define MOST_PAGES 65535u

#ifdef WASM2C_LATER
typedef uint64_t page_count;
#else
typedef uint32_t page_count;
#endif
#define NOT_GROWN ((page_count)-1)

static void make(wasm_rt_memory_t *memory, page_count pages, page_count most) {
#ifdef WASM2C_LATER
    wabt_allocate_memory(memory, pages, most, false);
#else
    wabt_allocate_memory(memory, pages, most);
#endif
}

static void allocate(wasm_rt_memory_t *memory, page_count pages, page_count most) {
    if (running->memory != NULL || pages > MOST_PAGES) wasm_rt_trap(WASM_RT_TRAP_OOB);
    make(memory, pages, most < MOST_PAGES ? most : MOST_PAGES);
    if (memory->data == NULL) wasm_rt_trap(WASM_RT_TRAP_OOB);
    running->memory = memory;
}

#ifdef WASM2C_LATER
void wasm2c_allocate_memory(wasm_rt_memory_t *memory, uint64_t pages, uint64_t most, bool is64) {
    if (is64) wasm_rt_trap(WASM_RT_TRAP_OOB);
    allocate(memory, pages, most);
}
#else
void wasm2c_allocate_memory(wasm_rt_memory_t *memory, uint32_t pages, uint32_t most) { allocate(memory, pages, most); }
#endif

static bool is_lent(const guest *guest) { return guest->number != GUEST_NONE; }

#if WASM2C_MAPPED
static bool add_pages(wasm2c_guest *at, page_count pages) {
    guest *guest = &at->base;
    uint8_t *end = at->memory->data + at->memory->size;
    if (wabt_grow_memory(at->memory, pages) == NOT_GROWN) return false;
    size_t len = (size_t)(at->memory->data + at->memory->size - end);
    if (is_lent(guest)) wasm2c_must(at, strm_memory_grown(&guest->embedder->store, guest->number, end, len));
    return true;
}
#else
/* Not by wabt_grow_memory, whose realloc frees the bytes before the store was told. */
static bool add_pages(wasm2c_guest *at, page_count pages) {
    guest *guest = &at->base;
    wasm_rt_memory_t longer;
    make(&longer, at->memory->pages + pages, at->memory->max_pages);
    if (longer.data == NULL) return false;
    memcpy(longer.data, at->memory->data, at->memory->size);
    if (is_lent(guest))
        wasm2c_must(at, strm_memory_moved(&guest->embedder->store, guest->number, longer.data, longer.size));
    wabt_free_memory(at->memory);
    *at->memory = longer;
    return true;
}
#endif

page_count wasm2c_grow_memory(wasm_rt_memory_t *memory, page_count pages) {
    page_count before = memory->pages;
    if (running == NULL || running->memory != memory || pages > memory->max_pages - before) return NOT_GROWN;
    return pages == 0 || add_pages(running, pages) ? before : NOT_GROWN;
}

void wasm2c_free_memory(wasm_rt_memory_t *memory) {
    if (memory->data == NULL) return;
#if WASM2C_MAPPED && !defined(WASM2C_LATER)
    /* wabt 1.0.32 reserves so many bytes, and gives up those of them alone that the memory has. */
    os_munmap(memory->data, 0x200000000);
#else
    wabt_free_memory(memory);
#endif
}

/* GUESTS */

typedef struct {
    uint32_t (*function)(void *instance, uint32_t, uint32_t, uint32_t);
    uint32_t words[3];
    uint32_t *answer;
} calling;

static void make_call(void *instance, void *with) {
    calling *call = with;
    *call->answer = call->function(instance, call->words[0], call->words[1], call->words[2]);
}

static bool run(guest *guest, uint32_t in, uint32_t out, uint32_t size, uint32_t *answer) {
    wasm2c_guest *at = (wasm2c_guest *)guest;
    return wasm2c_enter(at, make_call, &(calling){at->module->run, {in, out, size}, answer});
}

static bool callback(guest *guest, uint32_t event, uint32_t handle, uint32_t code, uint32_t *answer) {
    wasm2c_guest *at = (wasm2c_guest *)guest;
    return wasm2c_enter(at, make_call, &(calling){at->module->callback, {event, handle, code}, answer});
}

static const engine wasm2c = {run, callback, NULL};

static void instantiate(void *instance, void *with) {
    wasm2c_guest *made = with;
    made->module->instantiate(instance, made);
    const wasm_rt_memory_t *memory = made->memory;
    wasm2c_must(made, memory == NULL ? guest_begin(&made->base, NULL, 0)
                                     : guest_begin(&made->base, memory->data, memory->size));
}

wasm2c_guest *wasm2c_new(embedder *embedder, const wasm2c_module *module) {
    wasm2c_guest *made = calloc(1, sizeof *made);
    if (made == NULL) return NULL;
    made->base = (guest){.engine = &wasm2c, .embedder = embedder, .number = GUEST_NONE};
    made->module = module;
    made->instance = calloc(1, module->instance_size);
    if (made->instance != NULL && wasm2c_enter(made, instantiate, made)) return made;
    wasm2c_free(made);
    return NULL;
}

void wasm2c_free(wasm2c_guest *guest) {
    guest_end(&guest->base, GUEST_ENDED);
    if (guest->instance != NULL) guest->module->free(guest->instance);
    free(guest->instance);
    free(guest);
}

/* BUILT-INS */

uint32_t CANON_SET(new)(wasm2c_guest *g) {
    uint32_t set = 0;
    wasm2c_must(g, strm_set_new(&g->base.embedder->store, g->base.number, &set));
    return set;
}

/* The place is tested before an event is taken. */
uint32_t CANON_SET(poll)(wasm2c_guest *g, uint32_t set, uint32_t at) {
    uint32_t event, told[2];
    wasm2c_must(g, strm_memory_read(&g->base.embedder->store, g->base.number, at, (uint8_t *)told, sizeof told));
    wasm2c_must(g, guest_poll(&g->base, set, &event, told));
    wasm2c_must(g, strm_memory_write(&g->base.embedder->store, g->base.number, at, (const uint8_t *)told, sizeof told));
    return event;
}

void CANON_SET(drop)(wasm2c_guest *g, uint32_t set) {
    wasm2c_must(g, strm_set_drop(&g->base.embedder->store, g->base.number, set));
}

void CANON(waitable, join)(wasm2c_guest *g, uint32_t handle, uint32_t set) {
    wasm2c_must(g, strm_set_join(&g->base.embedder->store, g->base.number, set, handle));
}

uint32_t CANON_CONTEXT(new)(wasm2c_guest *g, uint32_t at, uint32_t len) {
    uint32_t handle = 0;
    wasm2c_must(g, strm_error_context_new(&g->base.embedder->store, g->base.number, at, len, &handle));
    return handle;
}

void CANON_CONTEXT(drop)(wasm2c_guest *g, uint32_t handle) {
    wasm2c_must(g, strm_error_context_drop(&g->base.embedder->store, g->base.number, handle));
}
