/*
 * Prints the microseconds that a call takes on standard input, as the least of
 * some rounds, and how many bytes of stack it takes:
 *
 *     measure judge ROUNDS CALLS < FILE
 *
 * where CALLS is the number of calls of a round.
 */
#define _GNU_SOURCE
#include "calls.h"

#include <pthread.h>
#include <stdio.h>
#include <stdlib.h>
#include <time.h>

enum { STACK = 64 << 20, MARK = 0x5a };

static uint8_t input[64 << 20], answer[16 << 20];
static size_t input_bytes;
static causal_judge_call *ask;

static void *once(void *unused) {
    size_t needed;
    (void)unused;
    ask(input, input_bytes, answer, sizeof answer, &needed);
    return NULL;
}

static double now(void) {
    struct timespec at;
    clock_gettime(CLOCK_MONOTONIC, &at);
    return at.tv_sec * 1e6 + at.tv_nsec / 1e3;
}

/* How many bytes of a marked stack one call wrote over, with what a thread takes for itself. */
static size_t stack_bytes(void) {
    uint8_t *stack = aligned_alloc(4096, STACK);
    pthread_attr_t attr;
    pthread_t thread;
    size_t left = 0;
    if (stack == NULL)
        abort();
    memset(stack, MARK, STACK);
    pthread_attr_init(&attr);
    pthread_attr_setstack(&attr, stack, STACK);
    if (pthread_create(&thread, &attr, once, NULL) != 0)
        abort();
    pthread_join(thread, NULL);
    while (left < STACK && stack[left] == MARK)
        left++;
    return STACK - left;
}

static double least_time(int rounds, int calls) {
    double least = 1e18;
    for (int round = 0; round < rounds; round++) {
        double start = now();
        for (int i = 0; i < calls; i++)
            once(NULL);
        double each = (now() - start) / calls;
        least = each < least ? each : least;
    }
    return least;
}

int main(int count, char **words) {
    ask = count == 4 ? call_named(words[1]) : NULL;
    if (ask == NULL)
        return 2;
    input_bytes = fread(input, 1, sizeof input, stdin);
    double least = least_time(atoi(words[2]), atoi(words[3]));
    printf("%.1f %zu\n", least, stack_bytes());
    return 0;
}
