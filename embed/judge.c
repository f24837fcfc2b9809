/*
 * Answers standard input as the program does, through the library:
 *
 *     judge_c judge < FILE
 *     judge_c log_explain_page < FILE > page.html
 *
 * Its word is the name of a call. The answer goes to standard output, the line of a refusal to standard error,
 * and the status of the call becomes that of the process.
 */
#include "calls.h"

#include <stdio.h>
#include <stdlib.h>

/* All of standard input, or NULL. */
static uint8_t *read_all(size_t *bytes) {
    size_t room = 65536;
    uint8_t *all = malloc(room);
    *bytes = 0;
    while (all != NULL) {
        size_t got = fread(all + *bytes, 1, room - *bytes, stdin);
        *bytes += got;
        if (got == 0)
            return all;
        if (*bytes == room) {
            uint8_t *more = realloc(all, room *= 2);
            if (more == NULL)
                free(all);
            all = more;
        }
    }
    return NULL;
}

int main(int count, char **words) {
    causal_judge_call *ask = count == 2 ? call_named(words[1]) : NULL;
    if (ask == NULL) {
        fputs("usage: judge_c CALL < FILE, where CALL is judge, explain, log_judge or another of calls.h\n", stderr);
        return 2;
    }
    size_t input_bytes, room = CAUSAL_JUDGE_LINES, needed;
    uint8_t *input = read_all(&input_bytes), *answer = malloc(room);
    if (input == NULL || answer == NULL)
        return CAUSAL_JUDGE_NO_MEMORY;
    uint8_t status = ask(input, input_bytes, answer, room, &needed);
    if (status == CAUSAL_JUDGE_TOO_SMALL) {
        free(answer);
        room = needed;
        answer = malloc(room);
        if (answer == NULL)
            return CAUSAL_JUDGE_NO_MEMORY;
        status = ask(input, input_bytes, answer, room, &needed);
    }
    if (status == CAUSAL_JUDGE_NO_MEMORY)
        fputs("no memory\n", stderr);
    else
        fwrite(answer, 1, needed, status == CAUSAL_JUDGE_ANSWERED ? stdout : stderr);
    free(answer);
    free(input);
    return status;
}
