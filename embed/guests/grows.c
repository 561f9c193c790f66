/* A line of three guests whose memories grow twice each as bytes pass, while their reads and writes wait; and guests
   whose memories grow to 1 GiB that they do not touch. */
#include <stdio.h>
#include <stdlib.h>
#include <unistd.h>

#include "program.h"

#include "growing.wasm.h"

CANON_STREAM(u8, STRM_U8)

WASM2C_MODULE(growing)

enum { GUESTS = 3, GIB = 1 << 30 };

/* While it runs the store has a guest's memory where it lies, and as long as it is. */
static void must_have(const wasm2c_guest *guest) {
    uint8_t *at = NULL;
    size_t len = 0;
    if (guest->base.state != GUEST_RUNS) return;
    must(strm_memory_at(&guest->base.embedder->store, guest->base.number, &at, &len) == STRM_DONE, "no memory");
    must(guest->memory->data == at && guest->memory->size == len, "the store was not told of a memory");
}

/* A turn of a guest, if it has one. Counted is how often its memory grew, and how often to another place. */
static bool turn(wasm2c_guest *guest, uint32_t *grown, uint32_t *moved) {
    uint8_t *at = guest->memory->data;
    uint64_t pages = guest->memory->pages;
    if (!guest_turn(&guest->base)) return false;
    *grown += guest->memory->pages != pages;
    *moved += guest->memory->data != at;
    must_have(guest);
    return true;
}

/* What a source writes, and what a filter makes of it, as a hash. */
static uint32_t hash_of(uint32_t size, uint8_t with) {
    uint32_t hash = 0;
    for (uint32_t k = 0; k < size; k++) hash = hash * 31 + ((uint8_t)((k * 2654435761u) >> 24) ^ with);
    return hash;
}

static void run_line(uint32_t size) {
    embedder all = {.count = 0};
    wasm2c_guest *guests[GUESTS];
    uint32_t grown = 0, moved = 0;
    must(strm_store_new(&all.store, 1, 100, 100) == STRM_DONE, "no store");
    for (int k = 0; k < GUESTS; k++) guests[k] = guest_of(&all, &growing);
    strm_pair first = between(&guests[0]->base, &guests[1]->base, STRM_U8);
    strm_pair second = between(&guests[1]->base, &guests[2]->base, STRM_U8);
    guest_run(&guests[0]->base, 0, first.write, size);
    guest_run(&guests[1]->base, first.read, second.write, size);
    guest_run(&guests[2]->base, second.read, 0, size);
    for (bool any = true; any;) {
        any = false;
        for (int k = 0; k < GUESTS; k++) any |= turn(guests[k], &grown, &moved);
    }
    for (int k = 0; k < GUESTS; k++) {
        void *at = guests[k]->instance;
        must(guests[k]->base.state == GUEST_ENDED, "a guest trapped, or waits for ever");
        must(WASM2C_EXPORT(growing, done)(at) == size && WASM2C_EXPORT(growing, grown)(at) == 2, "another count");
    }
    uint32_t hash = WASM2C_EXPORT(growing, hash)(guests[2]->instance);
    must(WASM2C_EXPORT(growing, hash)(guests[1]->instance) == hash_of(size, 0), "other bytes to the filter");
    must(hash == hash_of(size, 0x5a), "other bytes to the sink");
    printf("%u bytes, hash %08x, through three guests whose memories grew %u times, %u of them to another place\n", size,
           hash, grown, moved);
    for (int k = 0; k < GUESTS; k++) wasm2c_free(guests[k]);
    embedder_free(&all);
}

/* How many bytes of the program are there. */
static long resident(void) {
    long all, there;
    FILE *file = fopen("/proc/self/statm", "r");
    must(file != NULL && fscanf(file, "%ld %ld", &all, &there) == 2, "no statm");
    fclose(file);
    return there * sysconf(_SC_PAGESIZE);
}

static void widen(void *instance, void *pages) {
    must(WASM2C_EXPORT(growing, widen)(instance, *(uint32_t *)pages) != 0xffffffff, "it does not grow");
}

/* Guests one after the other, each with 1 GiB that it does not touch, and with the number of the one before. */
static void run_wide(uint32_t lives) {
    embedder all = {.count = 0};
    uint32_t pages = GIB / 65536;
    must(strm_store_new(&all.store, 1, 100, 100) == STRM_DONE, "no store");
    long before = resident(), most = 0;
    for (uint32_t life = 0; life < lives; life++) {
        wasm2c_guest *wide = guest_of(&all, &growing);
        must(wasm2c_enter(wide, widen, &pages), "it trapped");
        must_have(wide);
        must(wide->memory->size > GIB && wide->base.number == 0, "another size or number");
        long there = resident() - before;
        most = most > there ? most : there;
        wasm2c_free(wide);
    }
    fprintf(stderr, "guests with 1 GiB: %ld KiB are there at most\n", most / 1024);
    must(most < GIB / 256, "what they do not touch is there");
    printf("%u guests with 1 GiB each that they do not touch, one after the other: less than 4 MiB are there\n", lives);
    embedder_free(&all);
}

/* `grows BYTES`. */
int main(int count, char **words) {
    wasm_rt_init();
    run_line(count > 1 ? (uint32_t)strtoul(words[1], NULL, 10) : 67108864);
    run_wide(3);
    return 0;
}
