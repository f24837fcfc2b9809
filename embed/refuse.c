/*
 * Refuses each allocation of a call on standard input in turn:
 *
 *     refuse judge < FILE
 *
 * Each such call has to answer as usual, or to say that there was no memory
 * and leave its buffer as it was; and it has to give back all that it took. A
 * refusal may have fewer words after its first line. It prints how many
 * allocations were refused, and ends with status 1 where a call did otherwise.
 *
 * It is linked with --wrap for malloc, realloc and free.
 */
#include "calls.h"

#include <stdio.h>

enum { MARK = 0x5a, ROOM = 1 << 20 };

static uint8_t input[1 << 20], usual[ROOM], answer[ROOM], marked[ROOM];
/* Blocks that were not given back, allocations of the call, and the one that is refused. */
static size_t blocks, allocations, refused;

void *__real_malloc(size_t bytes);
void *__real_realloc(void *block, size_t bytes);
void __real_free(void *block);

void *__wrap_malloc(size_t bytes) {
    if (++allocations == refused)
        return NULL;
    blocks++;
    return __real_malloc(bytes);
}

void *__wrap_realloc(void *block, size_t bytes) {
    if (++allocations == refused)
        return NULL;
    blocks += block == NULL;
    return __real_realloc(block, bytes);
}

void __wrap_free(void *block) {
    blocks -= block != NULL;
    __real_free(block);
}

/* Whether the text in `answer` is a refusal with the first line of the usual one, and what comes after it is as it was. */
static int is_first_line(size_t due, size_t needed) {
    uint8_t *end = memchr(usual, '\n', due);
    size_t bytes = end == NULL ? due : (size_t)(end - usual) + 1;
    return bytes <= needed && needed <= due && memcmp(answer, usual, bytes) == 0 &&
           memcmp(answer + needed, marked + needed, ROOM - needed) == 0;
}

int main(int count, char **words) {
    causal_judge_call *ask = count == 2 ? call_named(words[1]) : NULL;
    if (ask == NULL)
        return 2;
    size_t input_bytes = fread(input, 1, sizeof input, stdin), due, needed;
    memset(marked, MARK, ROOM);
    memset(usual, MARK, ROOM);
    size_t before = blocks;
    uint8_t right = ask(input, input_bytes, usual, ROOM, &due), status;
    if (right > CAUSAL_JUDGE_REFUSED || blocks != before)
        return 1;
    do {
        memset(answer, MARK, ROOM);
        allocations = 0;
        refused++;
        status = ask(input, input_bytes, answer, ROOM, &needed);
        int is_usual = status == right && needed == due && memcmp(answer, usual, ROOM) == 0;
        int is_untold = status == CAUSAL_JUDGE_NO_MEMORY && needed == 0 && memcmp(answer, marked, ROOM) == 0;
        int is_short = right == CAUSAL_JUDGE_REFUSED && status == right && is_first_line(due, needed);
        if (blocks != before || (!is_usual && !((is_untold || is_short) && allocations >= refused)))
            return 1;
    } while (allocations >= refused);
    printf("%zu\n", refused - 1);
    return 0;
}
