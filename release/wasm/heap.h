// What heap.c gives, and what it asks of where it runs.
#ifndef HEAP_H
#define HEAP_H

// clang comes without headers here.
typedef __UINT64_TYPE__ word;

// The answer to a request: 1 and the address of a block, which is a multiple of 16, or 0 and an address that nothing reads.
typedef struct {
    word is_there;
    void *at;
} heap_answer;

// The three functions that Rattle's `Global` calls. An alignment is a power of two; one above 16 is refused. A request of no bytes takes a
// block all the same, so that no two blocks have one address. A request that is refused leaves everything as it was.
heap_answer rattle_alloc(word bytes, word alignment);
heap_answer rattle_realloc(void *at, word held, word bytes, word alignment);
void rattle_dealloc(void *at);

// The host's three: a block for what it passes to a call, or null; its return; and the bytes of all blocks that are taken, with headers.
void *judge_take(word bytes);
void judge_give(void *at);
word judge_live(void);

// Where the heap begins, where the memory ends now, and more of it: at least so many bytes, or 0 where there is no more.
word heap_begin(void);
word heap_end(void);
int heap_grow(word bytes);

#endif
