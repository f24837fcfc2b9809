// Tests heap.c and arithmetic.c natively, over a memory of their own that grows in steps and ends at a limit.
//
//     cc -std=gnu11 -g -O2 -fsanitize=address,undefined heap_test.c -o heap_test && ./heap_test
//
// The memory is a part of an address space that is reserved: what lies beyond its end faults. A plain list of what is taken says what each
// block has to hold. After each round all headers are walked. The last line says how many cases passed and failed.

#define _GNU_SOURCE
#include <stdio.h>
#include <stdlib.h>
#include <string.h>
#include <sys/mman.h>

// The names of clang's own functions are taken on this machine.
#define memcmp tested_memcmp
#define bcmp tested_bcmp
#define __multi3 tested_multi3
#define __ashlti3 tested_ashlti3
#define __lshrti3 tested_lshrti3
#define __ashrti3 tested_ashrti3
#include "arithmetic.c"
#undef memcmp
#undef bcmp
#include "heap.c"

enum { PAGE = 65536, KEPT = 4096 };

static byte *memory;
static word pages, most_pages, skew;
static long passed, failed, grown;

word heap_begin(void) { return (word)memory + skew; }
word heap_end(void) { return (word)memory + pages * PAGE; }

int heap_grow(word bytes) {
    word more = bytes / PAGE + (bytes % PAGE != 0);
    if (more > most_pages - pages)
        return 0;
    if (mprotect(memory + pages * PAGE, more * PAGE, PROT_READ | PROT_WRITE))
        abort();
    pages += more;
    grown++;
    return 1;
}

static void check(int is_so, const char *what, word number) {
    if (is_so) {
        passed++;
        return;
    }
    if (failed++ < 20)
        printf("%s: %llu\n", what, (unsigned long long)number);
}

// A new memory, of so many pages at first and at most, in which the heap begins at a byte.
static void begin(word first, word most, word at) {
    if (memory)
        munmap(memory, (most_pages + 16) * PAGE);
    memory = mmap(0, (most + 16) * PAGE, PROT_NONE, MAP_PRIVATE | MAP_ANONYMOUS | MAP_NORESERVE, -1, 0);
    if (memory == MAP_FAILED)
        abort();
    pages = 0, most_pages = most, skew = at, mark = 0, live = 0, grown = 0;
    memset(lists, 0, sizeof lists);
    memset(has, 0, sizeof has);
    if (!heap_grow(first * PAGE))
        abort();
}

// Walks all blocks: they fill the memory, know their neighbours, no two free ones are side by side, and each free one is in its list.
static void walk(const char *what) {
    word taken = 0, free_blocks = 0, listed = 0;
    if (!mark)
        return;
    block *it = (block *)((heap_begin() + 15) & ~(word)15);
    check(it->back == 0, what, 1);
    while (it != mark) {
        block *next = after(it);
        if (next <= it || next > mark || next->back != size_of(it) || size_of(it) % 16 || size_of(it) < LEAST)
            abort();
        check(!is_free(it) || !is_free(next), what, 2);
        if (is_free(it))
            free_blocks++;
        else
            taken += size_of(it);
        it = next;
    }
    check((word)(mark + 0) + HEADER <= heap_end() && heap_end() - (word)mark < HEADER + LEAST, what, 3);
    check(taken == judge_live(), what, 4);
    for (unsigned list = 0; list < LISTS; list++) {
        check(!lists[list] == !(has[list / 64] >> list % 64 & 1), what, 5);
        for (block *one = lists[list], *last = 0; one; last = one, one = one->next, listed++)
            if (!is_free(one) || list_of(size_of(one)) != list || one->last != last)
                abort();
    }
    check(listed == free_blocks, what, 6);
}

// What is taken, and what it has to hold. In the middle of a large block each 509th byte is looked at.
typedef struct {
    byte *at;
    word bytes, seed;
} held;

static held all[KEPT];
static word count;

static word state = 88172645463325252ULL;
static word any(word below) {
    state ^= state << 13, state ^= state >> 7, state ^= state << 17;
    return state % below;
}

static byte wanted_at(const held *it, word k) { return (byte)(it->seed * 31 + k + (k >> 8)); }

static word next_of(word k, word bytes) { return k >= 256 && k + 256 + 509 < bytes ? k + 509 : k + 1; }

static void fill(held *it, word from) {
    for (word k = from; k < it->bytes; k++)
        it->at[k] = wanted_at(it, k);
}

static int is_kept(const held *it, word bytes) {
    for (word k = 0; k < bytes; k = next_of(k, bytes))
        if (it->at[k] != wanted_at(it, k))
            return 0;
    return 1;
}

static int is_whole(const held *it) {
    word end = heap_end();
    return ((word)it->at & 15) == 0 && (word)it->at >= heap_begin() && (word)it->at + it->bytes <= end;
}

static int new_block(word bytes) {
    heap_answer got = rattle_alloc(bytes, 8);
    if (!got.is_there || count == KEPT)
        return 0;
    held *it = &all[count++];
    it->at = got.at, it->bytes = bytes, it->seed = any(1000);
    check(is_whole(it), "a block stands aligned and within the memory", bytes);
    fill(it, 0);
    return 1;
}

static void end_block(word index) {
    held *it = &all[index];
    check(is_kept(it, it->bytes), "a block keeps its bytes until it is given back", it->bytes);
    rattle_dealloc(it->at);
    *it = all[--count];
}

static int new_size(word index, word bytes) {
    held *it = &all[index];
    heap_answer got = rattle_realloc(it->at, it->bytes, bytes, 8);
    if (!got.is_there) {
        check(is_kept(it, it->bytes), "a refused change leaves a block as it was", bytes);
        return 0;
    }
    word kept = it->bytes < bytes ? it->bytes : bytes;
    it->at = got.at;
    check(is_kept(it, kept), "a changed block keeps its first bytes", bytes);
    it->bytes = bytes;
    check(is_whole(it), "a changed block stands aligned and within the memory", bytes);
    fill(it, kept);
    return 1;
}

static void end_all(const char *what) {
    while (count)
        end_block(any(count));
    check(judge_live() == 0, what, judge_live());
    walk(what);
    // Joined again, all of it is one free block.
    if (mark)
        check(is_free(before(mark)) && before(mark)->back == 0, what, 7);
}

// Each size by itself, from a fresh memory and beside others.
static void all_sizes(void) {
    begin(2, 4096, 1000);
    for (word bytes = 0; bytes <= 4200; bytes++) {
        check(new_block(bytes), "each small size", bytes);
        if (count == 64)
            end_block(any(count));
    }
    walk("small sizes");
    end_all("small sizes");
    for (word bytes = 4096; bytes < 100000000; bytes += bytes / 7) {
        check(new_block(bytes), "each large size", bytes);
        end_block(0);
        for (word power = 12; power < 26; power++)
            if (bytes >> power == 1)
                for (word near = 0; near < 3; near++) {
                    check(new_block(((word)1 << power) - 1 + near), "sizes beside powers of two", power);
                    end_block(0);
                }
    }
    end_all("large sizes");
}

static void no_bytes(void) {
    begin(1, 16, 0);
    heap_answer one = rattle_alloc(0, 1), other = rattle_alloc(0, 16);
    check(one.is_there && other.is_there && one.at != other.at, "no two blocks of no bytes are one", 0);
    check(!rattle_alloc(16, 32).is_there, "an alignment above 16 is refused", 32);
    check(!rattle_realloc(one.at, 0, 16, 32).is_there, "an alignment above 16 is refused", 33);
    rattle_dealloc(one.at);
    rattle_dealloc(other.at);
    end_all("no bytes");
}

// Takes, changes and gives back at random, with sizes of all kinds.
static word most_size = 3000000;

static word some_size(void) {
    word kind = any(100);
    if (kind < 60)
        return any(200);
    if (kind < 90)
        return any(5000);
    return any(kind < 99 ? 60000 : most_size);
}

static void change_any(void) {
    word index = any(count), bytes = some_size();
    new_size(index, bytes);
}

static void at_random(word first, word most, long steps) {
    begin(first, most, any(100));
    for (long step = 0; step < steps; step++) {
        word what = any(10);
        if (what < 4 && count < KEPT)
            new_block(some_size());
        else if (what < 7 && count)
            change_any();
        else if (count)
            end_block(any(count));
        if (step % 997 == 0)
            walk("at random");
    }
    end_all("at random");
}

// Memory that ends: requests fail, all that is held stays, and after some are given back there is room again.
static void ends(void) {
    static const word sizes[] = {0, 1, 24, 100, 1000, 5000, 60000, 100000, 1000000};
    for (unsigned k = 0; k < sizeof sizes / sizeof *sizes; k++) {
        begin(1, 40, 16 * k);
        while (count < KEPT && new_block(sizes[k]))
            ;
        walk("memory that ends");
        for (word index = 0; index < count; index++)
            check(is_kept(&all[index], all[index].bytes), "what is held stays where memory ends", sizes[k]);
        word had = count, before_live = judge_live();
        check(!new_block((word)40 * PAGE), "more than there is", sizes[k]);
        check(!count || !new_size(0, (word)40 * PAGE), "a change to more than there is", sizes[k]);
        check(judge_live() == before_live, "a refused request takes nothing", sizes[k]);
        if (had) {
            end_block(any(count));
            check(new_block(sizes[k]), "room again", sizes[k]);
        }
        end_all("memory that ends");
    }
    static const word absurd[] = {MOST, MOST + 1, (word)1 << 32, (word)1 << 40, (word)1 << 63, ~(word)0 - 30, ~(word)0 - 15, ~(word)0};
    begin(1, 40, 0);
    new_block(100);
    for (unsigned k = 0; k < sizeof absurd / sizeof *absurd; k++) {
        check(!new_block(absurd[k]), "an absurd request", k);
        check(!new_size(0, absurd[k]), "a change to an absurd size", k);
        check(!judge_take(absurd[k]), "an absurd request of the host", k);
    }
    end_all("absurd requests");
}

// A list that grows by doubling where it stands last copies nothing, and ends in little more memory than it needs.
static void grows_in_place(void) {
    begin(2, 4096, 0);
    new_block(16);
    for (word bytes = 32; bytes <= (word)128 << 20; bytes *= 2)
        check(new_size(0, bytes), "a list that doubles", bytes);
    check(pages * PAGE < ((word)160 << 20), "its memory", pages);
    end_all("a list that doubles");
}

// What is free at the memory's end counts: a request for nearly all of the memory is met after smaller ones were given back.
static void nearly_all(void) {
    begin(2, 40, 0);
    check(new_block((word)20 * PAGE), "half of the memory", 20);
    end_block(0);
    check(new_block((word)40 * PAGE - 2 * LEAST - 3 * HEADER), "nearly all of the memory", 40);
    end_all("nearly all of the memory");
}

// The same work again and again takes no more memory, and leaves none behind.
static void again_and_again(void) {
    word after_first = 0;
    begin(1, 16384, 64);
    most_size = 100000;
    for (int call = 0; call < 10000; call++) {
        state = 1234567;
        for (int step = 0; step < 16; step++)
            if (!count || any(3))
                new_block(some_size());
            else
                change_any();
        while (count)
            end_block(any(count));
        check(judge_live() == 0, "nothing is left after a call", (word)call);
        if (call == 0)
            after_first = pages;
    }
    check(pages == after_first, "the memory is that of the first call", pages);
    end_all("10,000 calls");
}

static int sign(int it) { return (it > 0) - (it < 0); }

static __int128 wide(void) {
    word kind = any(6), low = state, high = any(~(word)0);
    if (kind == 0) low = 0;
    if (kind == 1) high = ~(word)0;
    if (kind == 2) high = 0;
    if (kind == 3) low = ~(word)0, high = (word)1 << any(64);
    return (__int128)((unsigned __int128)high << 64 | low);
}

static void arithmetic(void) {
    for (int k = 0; k < 200000; k++) {
        __int128 one = wide(), other = wide();
        int by = (int)any(128);
        check(tested_multi3(one, other) == (__int128)((unsigned __int128)one * (unsigned __int128)other), "a product", (word)k);
        check(tested_ashlti3(one, by) == (__int128)((unsigned __int128)one << by), "a shift to the left", (word)by);
        check(tested_lshrti3(one, by) == (__int128)((unsigned __int128)one >> by), "a shift to the right", (word)by);
        check(tested_ashrti3(one, by) == one >> by, "a signed shift to the right", (word)by);
    }
    for (int k = 0; k < 20000; k++) {
        word bytes = any(40);
        byte *one = malloc(bytes + 1), *other = malloc(bytes + 1);
        for (word at = 0; at < bytes; at++)
            one[at] = other[at] = (byte)any(256);
        if (bytes && any(3))
            other[any(bytes)] = (byte)any(256);
        int is = tested_memcmp(one, other, bytes), wanted = memcmp(one, other, bytes);
        check(sign(is) == sign(wanted), "a comparison", bytes);
        check(!tested_bcmp(one, other, bytes) == !wanted, "an equality", bytes);
        free(one);
        free(other);
    }
}

int main(void) {
    all_sizes();
    no_bytes();
    at_random(1, 4096, 20000);
    at_random(1, 60, 40000);
    at_random(30, 300, 20000);
    ends();
    grows_in_place();
    nearly_all();
    again_and_again();
    arithmetic();
    printf("%ld passed, %ld failed\n", passed, failed);
    return failed != 0;
}
