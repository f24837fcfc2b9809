// Tries the heap of heap.c, or of the kit: blocks of all sizes and alignments, which keep what is in them, lie apart, and are given back;
// and memory that is refused. It writes what is wrong, and ends with status 1.

#include <stdbool.h>
#include <stdint.h>
#include <stdio.h>
#include <stdlib.h>
#include <string.h>

struct tried {
    bool is_there;
    void *place;
};

struct tried rattle_alloc(size_t bytes, size_t alignment);
struct tried rattle_realloc(void *block, size_t kept, size_t bytes, size_t alignment);
void rattle_dealloc(void *block);

enum { SIZES = 5000, ROUNDS = 10000, AT_ONCE = 64 };

static void check(bool is_right, const char *what, size_t bytes) {
    if (!is_right) {
        fprintf(stderr, "%s, of %zu bytes\n", what, bytes);
        exit(1);
    }
}

static unsigned char mark_of(size_t bytes, size_t place) { return (unsigned char)(bytes * 31 + place * 7 + 1); }

static void fill(unsigned char *block, size_t from, size_t to, size_t mark) {
    for (size_t place = from; place < to; place++)
        block[place] = mark_of(mark, place);
}

static bool is_filled(const unsigned char *block, size_t bytes, size_t mark) {
    for (size_t place = 0; place < bytes; place++)
        if (block[place] != mark_of(mark, place))
            return false;
    return true;
}

static unsigned char *got(size_t bytes, size_t alignment) {
    struct tried tried = rattle_alloc(bytes, alignment);
    check(tried.is_there, "no memory", bytes);
    check((uintptr_t)tried.place % alignment == 0, "a block is not aligned", bytes);
    return tried.place;
}

// A block of each size and alignment, grown and shrunk.
static void try_sizes(void) {
    for (size_t bytes = 0; bytes < SIZES; bytes++) {
        size_t alignment = (size_t)1 << bytes % 5, grown = bytes * 2 + 1, shrunk = bytes / 2;
        unsigned char *block = got(bytes, alignment);
        fill(block, 0, bytes, bytes);
        struct tried tried = rattle_realloc(block, bytes, grown, alignment);
        check(tried.is_there && is_filled(tried.place, bytes, bytes), "a block that grew", bytes);
        fill(tried.place, bytes, grown, bytes);
        tried = rattle_realloc(tried.place, shrunk, shrunk, alignment);
        check(tried.is_there && is_filled(tried.place, shrunk, bytes), "a block that shrank", bytes);
        check((uintptr_t)tried.place % alignment == 0, "a block that moved is not aligned", bytes);
        rattle_dealloc(tried.place);
    }
}

// Blocks that are there at once lie apart, also those of no bytes.
static void try_many(void) {
    unsigned char *blocks[AT_ONCE] = {0};
    size_t sizes[AT_ONCE] = {0};
    uint32_t drawn = 1;
    for (size_t round = 0; round < ROUNDS; round++) {
        drawn = drawn * 1664525 + 1013904223;
        size_t at = drawn >> 8 & (AT_ONCE - 1), bytes = drawn >> 16 & 1023;
        if (blocks[at] != NULL) {
            check(is_filled(blocks[at], sizes[at], at), "a block was written over", sizes[at]);
            rattle_dealloc(blocks[at]);
        }
        sizes[at] = round % 5 == 0 ? 0 : bytes;
        blocks[at] = got(sizes[at], 8);
        fill(blocks[at], 0, sizes[at], at);
        for (size_t other = 0; other < AT_ONCE; other++)
            check(other == at || blocks[other] != blocks[at], "two blocks are one", sizes[at]);
    }
    for (size_t at = 0; at < AT_ONCE; at++)
        if (blocks[at] != NULL)
            rattle_dealloc(blocks[at]);
}

// Memory that is refused: a block stays as it was.
static void try_refused(void) {
    volatile size_t most = SIZE_MAX / 2;
    struct tried tried = rattle_alloc(most, 16);
    check(!tried.is_there, "memory that nobody has", most);
    check(tried.place != NULL, "the place without memory is none", most);
    unsigned char *block = got(100, 16);
    fill(block, 0, 100, 3);
    tried = rattle_realloc(block, 100, most, 16);
    check(!tried.is_there && tried.place != NULL, "a block that can't grow", most);
    check(is_filled(block, 100, 3), "a block that could not grow changed", 100);
    rattle_dealloc(block);
}

int main(void) {
    try_sizes();
    try_many();
    try_refused();
    puts("heap: as it should be");
    return 0;
}
