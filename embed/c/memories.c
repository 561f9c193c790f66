/* An engine that makes its memories itself: pages that are not there before they are touched, a memory that grows
   where it lies while a read waits, one that moves then, and one that goes once its guest has ended. */
#include <stdio.h>
#include <stdlib.h>
#include <string.h>
#include <sys/mman.h>
#include <unistd.h>

#include "strm.h"

#define PAGE 65536u

static void must(strm_status status) {
    if (status == STRM_DONE) return;
    fprintf(stderr, "%s\n", strm_status_name(status));
    exit(1);
}

/* Zeros that are not there before they are touched. */
static uint8_t *reserve(size_t len) {
    void *at = mmap(NULL, len, PROT_READ | PROT_WRITE, MAP_PRIVATE | MAP_ANONYMOUS | MAP_NORESERVE, -1, 0);
    if (at != MAP_FAILED) return at;
    perror("mmap");
    exit(1);
}

/* How many bytes of the program are there. */
static long resident(void) {
    long all, there;
    FILE *file = fopen("/proc/self/statm", "r");
    if (!file || fscanf(file, "%ld %ld", &all, &there) != 2) exit(1);
    fclose(file);
    return there * sysconf(_SC_PAGESIZE);
}

int main(void) {
    strm_store store = {NULL};
    const size_t wide = (size_t)1 << 30;
    uint32_t writer, reader, own, code;
    strm_pair pair;
    must(strm_store_new(&store, 0, 100, 100));

    uint8_t *from = reserve(wide), *to = reserve(4 * PAGE), *elsewhere = reserve(4 * PAGE);
    long before = resident();
    must(strm_add_guest_at(&store, from, wide, &writer));
    must(strm_add_guest_at(&store, to, PAGE, &reader));
    printf("a guest of %zu bytes is %s\n", wide, resident() - before < 1 << 20 ? "not there yet" : "there");
    must(strm_add_guest(&store, 64, &own));
    must(strm_new_between(&store, writer, reader, STRM_U8, &pair));

    must(strm_stream_read(&store, reader, STRM_U8, pair.read, PAGE - 8, 8, &code));
    printf("a read of the last 8 bytes waits: %s\n", code == STRM_BLOCKED ? "yes" : "no");
    must(strm_memory_grown(&store, reader, to + PAGE, PAGE));
    memcpy(from + wide - 8, "in place", 8);
    must(strm_stream_write(&store, writer, STRM_U8, pair.write, (uint32_t)wide - 8, 8, &code));
    printf("the memory grew where it lies, and %u bytes came: %.8s\n", STRM_COUNT(code), (char *)to + PAGE - 8);
    must(strm_take_event(&store, reader, pair.read, &code));

    must(strm_stream_read(&store, reader, STRM_U8, pair.read, 2 * PAGE - 9, 9, &code));
    memcpy(elsewhere, to, 2 * PAGE);
    must(strm_memory_moved(&store, reader, elsewhere, 3 * PAGE));
    must(mprotect(to, 4 * PAGE, PROT_NONE) ? STRM_BUSY : STRM_DONE);
    memcpy(from, "elsewhere", 9);
    must(strm_stream_write(&store, writer, STRM_U8, pair.write, 0, 9, &code));
    printf("it moved, and %u bytes came: %.9s\n", STRM_COUNT(code), (char *)elsewhere + 2 * PAGE - 9);

    printf("fewer bytes: %s\n", strm_status_name(strm_memory_moved(&store, reader, elsewhere, PAGE)));
    printf("a memory of the store's own: %s\n", strm_status_name(strm_memory_grown(&store, own, elsewhere, 0)));
    printf("2^32 bytes: %s\n", strm_status_name(strm_add_guest_at(&store, from, (size_t)1 << 32, &own)));
    printf("a guest that goes on: %s\n", strm_status_name(strm_begin_guest(&store, reader, PAGE)));
    must(strm_end_guest(&store, reader));
    must(munmap(elsewhere, 4 * PAGE) ? STRM_BUSY : STRM_DONE);
    must(strm_take_event(&store, writer, pair.write, &code));
    printf("it ended, its bytes went, and the writer is told so: %s\n", code == STRM_DROPPED ? "yes" : "no");

    uint8_t *next = reserve(PAGE);
    must(strm_begin_guest_at(&store, reader, next, PAGE));
    must(strm_new_between(&store, writer, reader, STRM_U8, &pair));
    must(strm_stream_read(&store, reader, STRM_U8, pair.read, 0, 9, &code));
    memcpy(from, "once more", 9);
    must(strm_stream_write(&store, writer, STRM_U8, pair.write, 0, 9, &code));
    printf("another began under its number, and %u bytes came: %.9s\n", STRM_COUNT(code), (char *)next);
    strm_store_free(&store);
    printf("the bytes are the engine's again: %.9s\n", (char *)next);
    return 0;
}
