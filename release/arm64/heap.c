// The heap of the program and of the library on arm64: the three functions that Rattle's `Global` takes memory by, over the C library's.
//
// The kit has these for x86-64 alone. No proof covers them. test_heap.c tries them.

#include <stdbool.h>
#include <stddef.h>
#include <stdlib.h>

// Whether there is memory, and where. Without memory the place is a byte of this file, which nobody writes to.
struct tried {
    bool is_there;
    void *place;
};

static unsigned char no_memory;

static struct tried tried_at(void *place) {
    struct tried tried = {place != NULL, place != NULL ? place : &no_memory};
    return tried;
}

// The C library may answer nothing for no bytes, and every block has a place of its own. Alignments are divisors of 16, as malloc's.
static size_t least_of(size_t bytes, size_t alignment) { return bytes != 0 ? bytes : alignment; }

// New memory for so many bytes.
struct tried rattle_alloc(size_t bytes, size_t alignment) { return tried_at(malloc(least_of(bytes, alignment))); }

// Makes a block one of so many bytes, of which the first `kept` stay. Where there is no memory, the block is as it was.
struct tried rattle_realloc(void *block, size_t kept, size_t bytes, size_t alignment) {
    (void)kept;
    return tried_at(realloc(block, least_of(bytes, alignment)));
}

// Gives a block back.
void rattle_dealloc(void *block) { free(block); }
