"""The library, for Python: `ask(COMMAND, BYTES)` gives a status and a text.

COMMAND is one of COMMANDS: the name of a call without `causal_judge_`. It loads out/libcausal_judge.so beside this file, or the file
that CAUSAL_JUDGE_LIBRARY names. `python3 causal_judge.py COMMAND < FILE` answers standard input as the program does.
"""

import ctypes
import functools
import os
import pathlib
import sys

ANSWERED, REFUSED, TOO_SMALL, NO_MEMORY = 0, 1, 3, 4
# The calls, each with the words by which the program gives the same answer.
COMMANDS = {
    "judge": "judge",
    "check": "check",
    "explain": "explain --json",
    "explain_words": "explain",
    "explain_picture": "explain --svg",
    "explain_page": "explain --html",
    "refute": "refute",
    "long_judge": "judge --long",
    "long_explain": "explain --long --json",
    "long_explain_words": "explain --long",
    "long_explain_picture": "explain --long --svg",
    "long_explain_page": "explain --long --html",
    "long_refute": "refute --long",
    "log_judge": "judge --events",
    "log_explain": "explain --events --json",
    "log_explain_words": "explain --events",
    "log_explain_picture": "explain --events --svg",
    "log_explain_page": "explain --events --html",
    "log_events": "events",
}
# The bytes of a first buffer: of a call that answers with a few lines, and of any other. A longer text takes a second call.
LINES, TEXT = 4096, 1 << 20

_HERE = pathlib.Path(__file__).resolve().parent


@functools.cache
def _library():
    return ctypes.CDLL(os.environ.get("CAUSAL_JUDGE_LIBRARY", str(_HERE / "out" / "libcausal_judge.so")))


@functools.cache
def _call(command):
    call = getattr(_library(), f"causal_judge_{command}")
    call.argtypes = [ctypes.c_char_p, ctypes.c_size_t, ctypes.c_char_p, ctypes.c_size_t, ctypes.POINTER(ctypes.c_size_t)]
    call.restype = ctypes.c_uint8
    return call


def ask_once(command, data, room):
    """The status of one call with a buffer of so many bytes, how many bytes its text needs, and the buffer."""
    answer, needed = ctypes.create_string_buffer(max(room, 1)), ctypes.c_size_t()
    status = _call(command)(data, len(data), answer, room, ctypes.byref(needed))
    return status, needed.value, answer


def ask(command, data):
    """The status and the text of an answer, or of the line of a refusal. `command` is one of COMMANDS, and `data` is bytes."""
    status, needed, answer = ask_once(command, data, LINES if command.endswith(("judge", "check", "refute")) else TEXT)
    if status == TOO_SMALL:
        status, needed, answer = ask_once(command, data, needed)
    if status == NO_MEMORY:
        raise MemoryError
    return status, ctypes.string_at(answer, needed)


def main():
    if len(sys.argv) != 2 or sys.argv[1] not in COMMANDS:
        sys.exit(f"usage: causal_judge.py COMMAND < FILE, where COMMAND is one of {', '.join(COMMANDS)}")
    status, text = ask(sys.argv[1], sys.stdin.buffer.read())
    (sys.stdout if status == ANSWERED else sys.stderr).buffer.write(text)
    sys.exit(status)


if __name__ == "__main__":
    main()
