/*
 * The calls of the library by their names: `judge` for causal_judge_judge, and
 * so for each.
 */
#ifndef CAUSAL_JUDGE_CALLS_H
#define CAUSAL_JUDGE_CALLS_H

#include "causal_judge.h"

#include <string.h>

typedef uint8_t causal_judge_call(const uint8_t *, size_t, uint8_t *, size_t, size_t *);

#define CAUSAL_JUDGE_CALL(name) {#name, causal_judge_##name}

static const struct {
    const char *name;
    causal_judge_call *call;
} CAUSAL_JUDGE_CALLS[] = {
    CAUSAL_JUDGE_CALL(judge),
    CAUSAL_JUDGE_CALL(check),
    CAUSAL_JUDGE_CALL(explain),
    CAUSAL_JUDGE_CALL(explain_words),
    CAUSAL_JUDGE_CALL(explain_picture),
    CAUSAL_JUDGE_CALL(explain_page),
    CAUSAL_JUDGE_CALL(refute),
    CAUSAL_JUDGE_CALL(long_judge),
    CAUSAL_JUDGE_CALL(long_explain),
    CAUSAL_JUDGE_CALL(long_explain_words),
    CAUSAL_JUDGE_CALL(long_explain_picture),
    CAUSAL_JUDGE_CALL(long_explain_page),
    CAUSAL_JUDGE_CALL(long_refute),
    CAUSAL_JUDGE_CALL(log_judge),
    CAUSAL_JUDGE_CALL(log_explain),
    CAUSAL_JUDGE_CALL(log_explain_words),
    CAUSAL_JUDGE_CALL(log_explain_picture),
    CAUSAL_JUDGE_CALL(log_explain_page),
    CAUSAL_JUDGE_CALL(log_events),
};

/* The call with this name, or NULL. */
static causal_judge_call *call_named(const char *name) {
    for (size_t i = 0; i < sizeof CAUSAL_JUDGE_CALLS / sizeof CAUSAL_JUDGE_CALLS[0]; i++)
        if (strcmp(name, CAUSAL_JUDGE_CALLS[i].name) == 0)
            return CAUSAL_JUDGE_CALLS[i].call;
    return NULL;
}

#endif
