// The memory of a WebAssembly instance, as heap.c asks for it.

#include "host.h"

#define PAGE 65536

extern unsigned char __heap_base;

static word most_pages = 65536;

word heap_begin(void) { return (word)&__heap_base; }
word heap_end(void) { return (word)__builtin_wasm_memory_size(0) * PAGE; }

int heap_grow(word bytes) {
    word pages = bytes / PAGE + (bytes % PAGE != 0), there = (word)__builtin_wasm_memory_size(0);
    if (there > most_pages || pages > most_pages - there)
        return 0;
    // -1, which says that there is no more, comes with 64 bits or with 32: either is more than a 32-bit memory's pages.
    return (word)__builtin_wasm_memory_grow(0, pages) <= 65536;
}

void judge_limit(word bytes) { most_pages = bytes / PAGE; }
