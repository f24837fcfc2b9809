/*
 * The judge as a library: bytes in, bytes out, and a status.
 *
 * Each call takes an input, as the program causal_judge takes it on standard
 * input, and puts the text of its answer into a buffer of the caller:
 *
 *     uint8_t answer[CAUSAL_JUDGE_LINES];
 *     size_t needed;
 *     uint8_t status = causal_judge_judge(input, input_bytes, answer, sizeof answer, &needed);
 *     if (status == CAUSAL_JUDGE_ANSWERED)
 *         fwrite(answer, 1, needed, stdout);
 *
 * What a call tells is proved: it is what a run of the program may write for
 * the same input, and so each line of it is true of the history in the input,
 * or of the history that the log in the input records.
 *
 * What the caller owes, which nothing checks:
 *
 *   - `input`, `answer` and `needed` are not NULL, even where a size is 0.
 *   - `input` has `input_bytes` bytes and `answer` has `answer_bytes`; neither
 *     number is 2^63 or more. `needed` is one size_t.
 *   - `answer` and `needed` overlap neither each other nor `input`, and nobody
 *     else writes or reads them, or writes `input`, while the call runs.
 *   - malloc, realloc and free are one allocator, and malloc aligns as C
 *     demands.
 *   - No call is made from a signal handler, or in the child of a fork of a
 *     process with threads.
 *   - The thread that calls has CAUSAL_JUDGE_STACK_BYTES of stack left.
 *
 * A call starts no thread, waits for none, and reads and writes nothing but
 * what it is given and what it takes from malloc, all of which it has given
 * back when it returns. There is nothing to set up and nothing to tear down.
 *
 * Threads: any number of them may call at once, also on one input, each with
 * an `answer` and a `needed` of its own.
 *
 * Lifetimes: a call keeps no pointer. What it was given is the caller's again
 * as soon as it returns, to be changed or freed.
 */
#ifndef CAUSAL_JUDGE_H
#define CAUSAL_JUDGE_H

#include <stddef.h>
#include <stdint.h>

#ifdef __cplusplus
extern "C" {
#endif

/* What a call returns. */
enum {
    /* The answer is in the buffer: what the program writes to standard output. */
    CAUSAL_JUDGE_ANSWERED = 0,
    /*
     * The input is refused, and the line that says why is in the buffer: what
     * the program writes to standard error, as `refused 4 1.0`.
     */
    CAUSAL_JUDGE_REFUSED = 1,
    /*
     * The text, an answer or the line of a refusal, is longer than the buffer,
     * which is as it was. Call again with a buffer of *needed bytes.
     */
    CAUSAL_JUDGE_TOO_SMALL = 3,
    /* There was no memory. The buffer is as it was, and *needed is 0. */
    CAUSAL_JUDGE_NO_MEMORY = 4
};

/*
 * The answers of all calls to judge, check and refute have fewer bytes than
 * this, and so have all lines of refusals but those of logs. Where that were
 * not so, a call would say CAUSAL_JUDGE_TOO_SMALL.
 */
#define CAUSAL_JUDGE_LINES 128

/*
 * As much stack is enough for each call: more than twice what the program was
 * seen to take for the page of a log, which takes most, as README.md says.
 * Nothing proves it.
 */
#define CAUSAL_JUDGE_STACK_BYTES 1048576

/*
 * Each call sets *needed to the number of bytes of its text. A text ends with a
 * line feed, and no zero byte stands behind it: it is no C string. With status
 * 0 or 1 it stands first in the buffer, and the bytes behind it are as they
 * were.
 */

/* ---- Histories of any object, within the limits: docs/guide.md. An input has
 * at most 67,108,864 bytes. */

/*
 * Judges the history in the input: `causal_judge judge`. The answer is three
 * lines, for causal consistency, causal memory and causal convergence.
 */
uint8_t causal_judge_judge(const uint8_t *input, size_t input_bytes,
                           uint8_t *answer, size_t answer_bytes,
                           size_t *needed);

/*
 * Checks the certificate in the input against the history in it:
 * `causal_judge check`. The answer is one line.
 */
uint8_t causal_judge_check(const uint8_t *input, size_t input_bytes,
                           uint8_t *answer, size_t answer_bytes,
                           size_t *needed);

/*
 * Says why each criterion is met or not by the history in the input, or why
 * that is unknown: `causal_judge explain --json`. The answer is one line of
 * JSON, which may be long: a list of three entries, each of which has three
 * or four elements.
 */
uint8_t causal_judge_explain(const uint8_t *input, size_t input_bytes,
                             uint8_t *answer, size_t answer_bytes,
                             size_t *needed);

/*
 * Says the same in words: `causal_judge explain`.
 */
uint8_t causal_judge_explain_words(const uint8_t *input, size_t input_bytes,
                                   uint8_t *answer, size_t answer_bytes,
                                   size_t *needed);

/*
 * Says the same as a picture in SVG: `causal_judge explain --svg`.
 */
uint8_t causal_judge_explain_picture(const uint8_t *input, size_t input_bytes,
                                     uint8_t *answer, size_t answer_bytes,
                                     size_t *needed);

/*
 * Says the same as a page for a browser, with the reads that show a fault:
 * `causal_judge explain --html`. The answer is one HTML file, which needs no
 * other.
 */
uint8_t causal_judge_explain_page(const uint8_t *input, size_t input_bytes,
                                  uint8_t *answer, size_t answer_bytes,
                                  size_t *needed);

/*
 * Checks that the pattern in the input shows that the history in it does not
 * meet a criterion: `causal_judge refute`. The answer is one line.
 */
uint8_t causal_judge_refute(const uint8_t *input, size_t input_bytes,
                            uint8_t *answer, size_t answer_bytes,
                            size_t *needed);

/* ---- Memory histories of any length. An input has at most 1,073,741,824
 * bytes. */

/*
 * Judges the history in the input: `causal_judge judge --long`. The answer is
 * three lines.
 */
uint8_t causal_judge_long_judge(const uint8_t *input, size_t input_bytes,
                                uint8_t *answer, size_t answer_bytes,
                                size_t *needed);

/*
 * Says why each criterion is met or not: `causal_judge explain --long --json`.
 */
uint8_t causal_judge_long_explain(const uint8_t *input, size_t input_bytes,
                                  uint8_t *answer, size_t answer_bytes,
                                  size_t *needed);

/*
 * In words: `causal_judge explain --long`.
 */
uint8_t causal_judge_long_explain_words(const uint8_t *input, size_t input_bytes,
                                        uint8_t *answer, size_t answer_bytes,
                                        size_t *needed);

/*
 * As a picture in SVG: `causal_judge explain --long --svg`.
 */
uint8_t causal_judge_long_explain_picture(const uint8_t *input, size_t input_bytes,
                                          uint8_t *answer, size_t answer_bytes,
                                          size_t *needed);

/*
 * As a page: `causal_judge explain --long --html`.
 */
uint8_t causal_judge_long_explain_page(const uint8_t *input, size_t input_bytes,
                                       uint8_t *answer, size_t answer_bytes,
                                       size_t *needed);

/*
 * Checks that the pattern in the input shows that the history in it does not
 * meet a criterion: `causal_judge refute --long`. The answer is one line.
 */
uint8_t causal_judge_long_refute(const uint8_t *input, size_t input_bytes,
                                 uint8_t *answer, size_t answer_bytes,
                                 size_t *needed);

/*
 * ---- Logs of events, one on a line. A log may have any number of bytes, and
 * for a page at most 67,108,864. A last line that is not whole is passed over:
 * one without a line feed that is no JSON text. The program says so on standard
 * error; a call says nothing of it.
 *
 * The text of a refusal is what the program writes to standard error: the
 * number of the refusal and of the line at fault, as `refused 30 2`, and on a
 * second line what is wrong there, which may be said in fewer words where
 * there is little memory.
 */

/*
 * Judges the history of the log in the input: `causal_judge judge --events`.
 * The answer is three lines.
 */
uint8_t causal_judge_log_judge(const uint8_t *input, size_t input_bytes,
                               uint8_t *answer, size_t answer_bytes,
                               size_t *needed);

/*
 * Says why each criterion is met or not: `causal_judge explain --events --json`.
 */
uint8_t causal_judge_log_explain(const uint8_t *input, size_t input_bytes,
                                 uint8_t *answer, size_t answer_bytes,
                                 size_t *needed);

/*
 * In words: `causal_judge explain --events`.
 */
uint8_t causal_judge_log_explain_words(const uint8_t *input, size_t input_bytes,
                                       uint8_t *answer, size_t answer_bytes,
                                       size_t *needed);

/*
 * As a picture in SVG: `causal_judge explain --events --svg`.
 */
uint8_t causal_judge_log_explain_picture(const uint8_t *input, size_t input_bytes,
                                         uint8_t *answer, size_t answer_bytes,
                                         size_t *needed);

/*
 * As a page: `causal_judge explain --events --html`.
 */
uint8_t causal_judge_log_explain_page(const uint8_t *input, size_t input_bytes,
                                      uint8_t *answer, size_t answer_bytes,
                                      size_t *needed);

/*
 * Writes the history of the log in the input as JSON, in the form that
 * causal_judge_long_judge reads: `causal_judge events`.
 */
uint8_t causal_judge_log_events(const uint8_t *input, size_t input_bytes,
                                uint8_t *answer, size_t answer_bytes,
                                size_t *needed);

#ifdef __cplusplus
}
#endif

#endif
