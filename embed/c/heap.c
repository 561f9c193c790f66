/* What packaged/heap.c answers, which stands for the kit's heap in the archive for arm64: how many bytes it asks of the
   C library, and what it says where those are refused. */
#include <stdbool.h>
#include <stdint.h>
#include <stdio.h>
#include <stdlib.h>
#include <string.h>

static bool refuse;
static size_t asked;

static void *ask_block(size_t size) {
    asked = size;
    return refuse ? NULL : malloc(size);
}

static void *ask_resize(void *block, size_t size) {
    asked = size;
    return refuse ? NULL : realloc(block, size);
}

#define malloc ask_block
#define realloc ask_resize
#include "../packaged/heap.c"

static tried tell(const char *what, tried answer) {
    printf("%s: %zu asked, %s, %s\n", what, asked, answer.ok ? "there" : "none",
           !answer.at ? "no address" : answer.ok && (uintptr_t)answer.at % 16 ? "not aligned" : "an address");
    return answer;
}

int main(void) {
    char *block = tell("24 bytes", rattle_alloc(24, 8)).at;
    tried empty = tell("no bytes, aligned to 8", rattle_alloc(0, 8));
    printf("two blocks: %s\n", empty.at != block ? "two addresses" : "one address");
    memcpy(block, "0123456789abcdefghijklm", 24);
    block = tell("grown to 100,000", rattle_realloc(block, 24, 100000, 8)).at;
    printf("kept: %s\n", block);
    refuse = true;
    tell("refused", rattle_alloc(24, 8));
    tell("refused to grow", rattle_realloc(block, 24, 200000, 8));
    printf("kept: %s\n", block);
    refuse = false;
    block = tell("shrunk to none, aligned to 16", rattle_realloc(block, 0, 0, 16)).at;
    rattle_dealloc(block);
    rattle_dealloc(empty.at);
    return 0;
}
