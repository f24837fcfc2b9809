// The memory of the module: what Rattle's `Global` calls, for WebAssembly, which has no C library.
//
// Blocks stand side by side from the module's first free byte to the end of its memory. Each begins with a header of 16 bytes: how far
// back the block before it begins, and its own size, a multiple of 16, whose lowest bit says that the block is free. Free blocks of like
// size are in one list, and a bit for each list says whether it has a block. A block that is given back is joined with its free
// neighbours. Where no free block is large enough, the memory grows; nothing is ever returned to the host, which frees the whole memory
// with the module's instance.
//
// No proof covers this file. heap_test.c tests it natively, with sanitizers.

#include "heap.h"

typedef unsigned char byte;

enum { HEADER = 16, LEAST = 32, FREE = 1, LISTS = 416, WORDS = (LISTS + 63) / 64 };

// Requests of more bytes than a 32-bit memory has are refused before any sum is made of them.
#define MOST 0xFFFF0000ULL

typedef struct block {
    word back; // how many bytes before this header the header of the block before it stands; 0 for the first block
    word size; // the bytes of this block with its header, and FREE in the lowest bit; 0 for the mark at the memory's end
    struct block *next, *last; // in a free block: the neighbours in its list
} block;

static block *lists[LISTS];
static word has[WORDS];
static block *mark; // the header at the memory's end, or null before the first request
static word live;

static word size_of(const block *it) { return it->size & ~(word)FREE; }
static int is_free(const block *it) { return it->size & FREE; }
static block *after(const block *it) { return (block *)((byte *)it + size_of(it)); }
static block *before(const block *it) { return (block *)((byte *)it - it->back); }

// The list that blocks of a size belong to: one for each multiple of 16 below 512, and sixteen for each power of two from there on.
static unsigned list_of(word size) {
    if (size < 512)
        return (unsigned)(size / 16);
    unsigned power = 63 - (unsigned)__builtin_clzll(size);
    return 32 + (power - 9) * 16 + (unsigned)(size >> (power - 4) & 15);
}

// The first list all of whose blocks have a size or more.
static unsigned list_above(word size) {
    if (size < 512)
        return list_of(size);
    unsigned power = 63 - (unsigned)__builtin_clzll(size);
    return list_of(size + ((word)1 << (power - 4)) - 1);
}

static void put_in(block *it) {
    unsigned list = list_of(size_of(it));
    it->size |= FREE;
    it->last = 0;
    it->next = lists[list];
    if (it->next)
        it->next->last = it;
    lists[list] = it;
    has[list / 64] |= (word)1 << list % 64;
}

static void take_out(block *it) {
    unsigned list = list_of(size_of(it));
    it->size &= ~(word)FREE;
    if (it->next)
        it->next->last = it->last;
    if (it->last)
        it->last->next = it->next;
    else
        lists[list] = it->next;
    if (!lists[list])
        has[list / 64] &= ~((word)1 << list % 64);
}

static void set_size(block *it, word size) {
    it->size = size;
    after(it)->back = size;
}

// Puts a block that is in no list among the free ones, joined with its free neighbours.
static void give(block *it) {
    block *next = after(it), *last = before(it);
    if (is_free(next)) {
        take_out(next);
        set_size(it, size_of(it) + size_of(next));
    }
    if (last != it && is_free(last)) {
        take_out(last);
        set_size(last, size_of(last) + size_of(it));
        it = last;
    }
    put_in(it);
}

// Cuts what a block in no list has beyond a size, and gives it back.
static void cut(block *it, word size) {
    word more = size_of(it) - size;
    if (more < LEAST)
        return;
    block *rest = (block *)((byte *)it + size);
    rest->back = size;
    it->size = size;
    set_size(rest, more);
    give(rest);
}

// A free block of a size or more, or null.
static block *found(word size) {
    block *own = lists[list_of(size)];
    if (own && size_of(own) >= size)
        return own;
    unsigned list = list_above(size);
    for (unsigned at = list / 64; at < WORDS; at++) {
        word some = at == list / 64 ? has[at] & ~(word)0 << list % 64 : has[at];
        if (some)
            return lists[at * 64 + (unsigned)__builtin_ctzll(some)];
    }
    return 0;
}

// Lays the mark at the memory's end as it is now, with what lies between as a block in no list, or null where nothing does.
static block *reach(void) {
    word end = heap_end() & ~(word)15;
    if (!mark) {
        word begin = (heap_begin() + 15) & ~(word)15;
        if (end < begin || end - begin < LEAST + HEADER)
            return 0;
        mark = (block *)begin;
        mark->back = 0;
        mark->size = 0;
    }
    word size = end - HEADER - (word)mark;
    if (size < LEAST)
        return 0;
    block *it = mark;
    mark = (block *)(end - HEADER);
    mark->size = 0;
    set_size(it, size);
    return it;
}

// Makes the memory larger, so that its last bytes have a free block of a size, and says whether that was possible.
static int grow(word size) {
    word there = mark && is_free(before(mark)) ? size_of(before(mark)) : 0;
    word more = (size > there ? size - there : 0) + LEAST + HEADER;
    word wanted = (heap_end() - heap_begin()) / 8;
    if ((wanted <= more || !heap_grow(wanted)) && !heap_grow(more))
        return 0;
    block *it = reach();
    if (it)
        give(it);
    return 1;
}

// The size of the block for a request of so many bytes.
static word size_for(word bytes) {
    word size = (bytes + HEADER + 15) & ~(word)15;
    return size < LEAST ? LEAST : size;
}

// A block with room for so many bytes, or null.
static byte *take(word bytes) {
    if (bytes > MOST)
        return 0;
    word size = size_for(bytes);
    if (!mark) {
        block *first = reach();
        if (first)
            give(first);
    }
    block *it = found(size);
    if (!it) {
        if (!grow(size))
            return 0;
        it = found(size);
        if (!it)
            return 0;
    }
    take_out(it);
    cut(it, size);
    live += size_of(it);
    return (byte *)it + HEADER;
}

// Makes room for a size in a block where it stands, and says whether that was possible.
static int stretch(block *it, word size) {
    word had = size_of(it);
    if (had < size) {
        block *next = after(it);
        word whole = had + (is_free(next) ? size_of(next) : 0);
        int is_last = next == mark || (is_free(next) && after(next) == mark);
        if (whole < size && (!is_last || !grow(size - had)))
            return 0;
        next = after(it);
        if (!is_free(next) || had + size_of(next) < size)
            return 0;
        take_out(next);
        set_size(it, had + size_of(next));
    }
    cut(it, size);
    live += size_of(it) - had;
    return 1;
}

// What a request that failed has for an address: nothing reads it.
static byte nothing[16];

static heap_answer answer_of(byte *at) {
    heap_answer it = {at != 0, at ? at : nothing};
    return it;
}

heap_answer rattle_alloc(word bytes, word alignment) {
    return answer_of(alignment > 16 ? 0 : take(bytes));
}

void rattle_dealloc(void *at) {
    block *it = (block *)((byte *)at - HEADER);
    live -= size_of(it);
    give(it);
}

heap_answer rattle_realloc(void *at, word held, word bytes, word alignment) {
    if (alignment > 16 || bytes > MOST)
        return answer_of(0);
    if (stretch((block *)((byte *)at - HEADER), size_for(bytes)))
        return answer_of(at);
    byte *to = take(bytes);
    if (to) {
        __builtin_memcpy(to, at, held < bytes ? held : bytes);
        rattle_dealloc(at);
    }
    return answer_of(to);
}

void *judge_take(word bytes) { return take(bytes); }
void judge_give(void *at) { rattle_dealloc(at); }
word judge_live(void) { return live; }
