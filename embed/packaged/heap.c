/* The heap of the archive for arm64: what the kit has for x86-64 alone, in its c/liblibc_c.a. No proof covers these
   lines, as none covers the kit's.

   Blocks are those of malloc, which are aligned for every type of C, and no type of the archive asks for more than 16
   bytes. A block of no bytes gets as many as its alignment, so that it has an address of its own. Where there is no
   memory `ok` is false, a block that was to be resized is as it was, and `at` is of a byte that nobody reads. */
#include <stdbool.h>
#include <stddef.h>
#include <stdlib.h>

_Static_assert(_Alignof(max_align_t) >= 16, "malloc aligns to 16 bytes");

typedef struct {
    bool ok;
    void *at;
} tried;

tried rattle_alloc(size_t size, size_t align);
tried rattle_realloc(void *block, size_t kept, size_t size, size_t align);
void rattle_dealloc(void *block);

static tried try_block(void *block) {
    static char nothing;
    return block ? (tried){true, block} : (tried){false, &nothing};
}

tried rattle_alloc(size_t size, size_t align) {
    return try_block(malloc(size ? size : align));
}

/* The C library knows how many bytes are to be kept: all that the block has. */
tried rattle_realloc(void *block, size_t kept, size_t size, size_t align) {
    (void)kept;
    return try_block(realloc(block, size ? size : align));
}

void rattle_dealloc(void *block) {
    free(block);
}
