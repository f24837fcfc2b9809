// Answers standard input as the program does, through the library:
//
//	judge_go judge < FILE
//
// Its word is the name of a call, such as log_explain_page.
package main

/*
#cgo !installed LDFLAGS: ${SRCDIR}/out/libcausal_judge.a
#cgo installed pkg-config: causal_judge
#include "causal_judge.h"

typedef uint8_t call(const uint8_t *, size_t, uint8_t *, size_t, size_t *);

static uint8_t ask_by(call *ask, const uint8_t *input, size_t input_bytes, uint8_t *answer, size_t answer_bytes, size_t *needed) {
    return ask(input, input_bytes, answer, answer_bytes, needed);
}
*/
import "C"

import (
	"fmt"
	"io"
	"os"
	"unsafe"
)

var commands = map[string]*C.call{
	"judge":                (*C.call)(C.causal_judge_judge),
	"check":                (*C.call)(C.causal_judge_check),
	"explain":              (*C.call)(C.causal_judge_explain),
	"explain_words":        (*C.call)(C.causal_judge_explain_words),
	"explain_picture":      (*C.call)(C.causal_judge_explain_picture),
	"explain_page":         (*C.call)(C.causal_judge_explain_page),
	"refute":               (*C.call)(C.causal_judge_refute),
	"long_judge":           (*C.call)(C.causal_judge_long_judge),
	"long_explain":         (*C.call)(C.causal_judge_long_explain),
	"long_explain_words":   (*C.call)(C.causal_judge_long_explain_words),
	"long_explain_picture": (*C.call)(C.causal_judge_long_explain_picture),
	"long_explain_page":    (*C.call)(C.causal_judge_long_explain_page),
	"long_refute":          (*C.call)(C.causal_judge_long_refute),
	"log_judge":            (*C.call)(C.causal_judge_log_judge),
	"log_explain":          (*C.call)(C.causal_judge_log_explain),
	"log_explain_words":    (*C.call)(C.causal_judge_log_explain_words),
	"log_explain_picture":  (*C.call)(C.causal_judge_log_explain_picture),
	"log_explain_page":     (*C.call)(C.causal_judge_log_explain_page),
	"log_events":           (*C.call)(C.causal_judge_log_events),
}

// start is where a slice begins that has a byte at least: no pointer may be nil.
func start(bytes []byte) *C.uint8_t {
	return (*C.uint8_t)(unsafe.Pointer(&bytes[0]))
}

// ask asks once, and once more where the text has no room. It gives the status and the text.
func ask(call *C.call, input []byte) (int, []byte) {
	// One byte more than is told of, so that there is one in any case.
	input = append(input, 0)
	answer := make([]byte, C.CAUSAL_JUDGE_LINES)
	for {
		var needed C.size_t
		status := C.ask_by(call, start(input), C.size_t(len(input)-1), start(answer), C.size_t(len(answer)), &needed)
		if status != C.CAUSAL_JUDGE_TOO_SMALL {
			return int(status), answer[:needed]
		}
		answer = make([]byte, needed)
	}
}

func main() {
	if len(os.Args) != 2 || commands[os.Args[1]] == nil {
		fmt.Fprintln(os.Stderr, "usage: judge_go CALL < FILE, where CALL is judge, explain, log_judge or another name in commands")
		os.Exit(2)
	}
	input, err := io.ReadAll(os.Stdin)
	if err != nil {
		fmt.Fprintln(os.Stderr, err)
		os.Exit(3)
	}
	status, text := ask(commands[os.Args[1]], input)
	switch status {
	case C.CAUSAL_JUDGE_ANSWERED:
		os.Stdout.Write(text)
	case C.CAUSAL_JUDGE_REFUSED:
		os.Stderr.Write(text)
	default:
		fmt.Fprintln(os.Stderr, "no memory")
	}
	os.Exit(status)
}
