#!/usr/bin/env python3
"""Compares the WebAssembly module with the native library, and tries the page that has the module inside.

    python3 tests/process/wasm_module.py SEED COUNT [--long] [--made DIR] [--library FILE.a] [--pictures DIR] -- PROGRAM

It tests release/wasm/heap.c natively, with sanitizers. It makes the module and the page by release/wasm.sh, or takes those of DIR. COUNT
random inputs, half of them mangled, go to the module by Node and to the library, which Rattle made of the same LLVM module: the status
and the text have to be the same, and no memory may be left over. So do hostile inputs, very long ones, and a log of 1,000,000 events,
which may take three times as long as natively. Then memory ends at many limits: each call has to answer as usual or to say so, and the
next call has to be right. 10,000 calls have to take no more memory than the first ones. judge_page.py tries the page in Chromium and
Firefox, where they are there, and puts the random inputs to the module in each; --pictures keeps what it draws.

PROGRAM is not run: the library is compared with it by embed/run.py.
"""

import argparse
import collections
import contextlib
import ctypes
import itertools
import json
import pathlib
import random
import re
import shutil
import subprocess
import tempfile
import time

import folders  # noqa: F401
import judge_page
import random_logs
import random_memories
from command_words import with_program
from counting import counted, end
from mangled import data_for, input_of, shown_in
from patterns import AGAINST

ROOT = pathlib.Path(__file__).resolve().parents[2]
WASM = ROOT / "release" / "wasm"
CALLS = tuple(re.findall(r"^uint8_t causal_judge_(\w+)\(", (ROOT / "embed" / "causal_judge.h").read_text(encoding="ascii"), re.MULTILINE))
NO_MEMORY, TOO_SMALL = 4, 3
MOST_BYTES = 67_108_864
EVENTS, MOST_TIMES = 1_000_000, 3
MANY_CALLS = 10_000
SECONDS, SEEN = {}, collections.Counter()
SANITIZED = ("-std=gnu11", "-g", "-O2", "-Wall", "-Wextra", "-Werror", "-fsanitize=address,undefined", "-fno-sanitize-recover=undefined")


def kit():
    """The folder of the kit."""
    return pathlib.Path(subprocess.run(["rt", "doc"], check=True, capture_output=True, text=True).stdout.split()[-1]).parent


def heap_cases(room):
    """Whether the tests of the heap pass, by each compiler that is there."""
    for compiler in filter(shutil.which, ("gcc", "clang")):
        made = subprocess.run([compiler, *SANITIZED, WASM / "heap_test.c", "-o", room / "heap_test"], capture_output=True, check=False)
        done = subprocess.run([room / "heap_test"], capture_output=True, check=False) if made.returncode == 0 else made
        is_well = done.returncode == 0 and b" passed, 0 failed" in done.stdout
        yield f"the heap by {compiler}: {(done.stdout + done.stderr)[-300:]!r}", is_well


def call_cases(room):
    """Whether judge.mjs passes inputs, takes answers and gives up instances rightly, over a module made for that."""
    support, module = ROOT / "tests" / "support", room / "calls.wasm"
    made = subprocess.run(["wasm-as", "--enable-bulk-memory", support / "judge_calls.wat", "-o", module], capture_output=True, check=False)
    words = ["node", support / "judge_calls.mjs", WASM / "judge.mjs", module]
    done = subprocess.run(words, capture_output=True, check=False) if made.returncode == 0 else made
    yield f"judge.mjs: {done.stderr[-600:].decode(errors='replace')}", done.returncode == 0 and done.stdout == b"done\n"


class Library:
    """The native library, as a shared object."""

    def __init__(self, archive, room):
        where = room / "objects"
        where.mkdir()
        for words in (["ar", "x", archive], ["ar", "x", kit() / "c" / "liblibc_c.a", "heap.pic.o"]):
            subprocess.run(words, cwd=where, check=True)
        shared = room / "library.so"
        subprocess.run(["cc", "-shared", "-o", shared, *where.glob("*.o")], check=True)
        self.library = ctypes.CDLL(str(shared))

    def ask(self, call, data):
        """The status and the text of a call."""
        made, needed, room = getattr(self.library, f"causal_judge_{call}"), ctypes.c_size_t(), (1 << 20) + len(data)
        made.restype = ctypes.c_uint8
        while True:
            answer = ctypes.create_string_buffer(room)
            status = made(data, ctypes.c_size_t(len(data)), answer, ctypes.c_size_t(room), ctypes.byref(needed))
            if status != TOO_SMALL:
                return status, ctypes.string_at(answer, needed.value)
            room = needed.value


class Module:
    """The module in a process of Node, which answers one call after the other."""

    def __init__(self, module):
        words = ["node", ROOT / "tests" / "support" / "module_answers.mjs", WASM / "judge.mjs", module]
        self.process = subprocess.Popen(words, stdin=subprocess.PIPE, stdout=subprocess.PIPE)

    def __enter__(self):
        return self

    def __exit__(self, *fault):
        with contextlib.suppress(OSError):
            self.process.stdin.close()
        self.process.wait()

    def said(self, **words):
        """What is answered to a line, and to the bytes after it."""
        data = words.pop("data", b"")
        self.process.stdin.write(json.dumps({**words, "bytes": len(data)}).encode() + b"\n" + data)
        self.process.stdin.flush()
        head = json.loads(self.process.stdout.readline())
        return head, self.process.stdout.read(head["bytes"])

    def ask(self, call, data):
        """The status and the text of a call, and the bytes of memory that are taken after it."""
        head, text = self.said(call=call, data=data)
        return head["status"], text, head["taken"]

    def memory_after(self, call, data):
        """The bytes of a new instance's memory after a call."""
        self.said(limit=0)
        return self.said(call=call, data=data)[0]["memory"]


def claim(rng):
    """A memory history, a criterion and a pattern that shows that the history does not meet it."""
    while True:
        history = random_memories.small(rng)
        if shown := shown_in(history):
            pattern = rng.choice(shown)
            return [history, rng.choice(AGAINST[pattern[0]]), pattern]


def data_of(rng, call):
    """An input for a call, mangled or whole; now and then what another call reads."""
    if rng.random() < 0.05:
        call = rng.choice(CALLS)
    command = re.sub(r"^(?:long_|log_)?(judge|check|explain|refute|events).*", r"\1", call)
    if call.startswith("log_"):
        return data_for(rng, command, [command, "--events"]) if rng.random() < 0.5 else random_logs.log(rng)
    if rng.random() < 0.5:
        return data_for(rng, command, [command])
    if command == "refute":
        return json.dumps(claim(rng)).encode()
    if call.startswith("long_"):
        made = rng.choice((random_memories.small, random_memories.small, random_memories.wide, random_memories.tall))(rng)
        return json.dumps(made[0] if isinstance(made, tuple) else made).encode()
    return json.dumps(input_of(rng, command)).encode()


def kept(call, data):
    """The name of a file with an input, which stays."""
    with tempfile.NamedTemporaryFile(prefix=f"wasm-{call}-", delete=False) as file:
        file.write(data)
    return file.name


def compared(module, library, cases):
    """Whether the module answers each case as the library does, and has given all memory back."""
    for call, data in cases:
        due, found = library.ask(call, data), module.ask(call, data)
        is_same = found == (*due, 0)
        SEEN[call, due[0]] += 1
        yield f"{call} < {'' if is_same else kept(call, data)}: {found!r:.300}, the library {due!r:.300}", is_same


def hostile():
    """Inputs that are long, deep, binary or broken, for every call."""
    deep = 200_000
    texts = [b"", b"\0", b"\xff\xfe", b"\xef\xbb\xbf[]", b"[" * deep, b"[" * deep + b"]" * deep, b'{"a":' * deep, b'"' + b"a" * 2_000_000 + b'"']
    texts += [b'["memory",' + b"[" * deep, b'["memory",[' + b"[]," * deep + b"[]]]", b"1e999", b"-" * deep, b"\n" * deep, b"9" * deep]
    texts += [b'["begin","a",["w","k",1]]\n' * 50_000, b'["lost","' + b"a" * 1_100_000 + b'"]\n', b'["start","k",1]\n["start","k",1]\n']
    texts += [b'["memory",[[' + b",".join(b'["w",0,%d]' % it for it in range(30_000)) + b"]]]", b'["queue",[[' + b'["push",1],' * 300 + b'["pop",1]]]]']
    texts += [b'["begin",%d,["w","k",%d]]\n' % (it, it) for it in (2**64 - 1, 2**64)]
    return [(call, text) for call in CALLS for text in texts]


def very_long():
    """One byte more than an input may have."""
    return [(call, b" " * (MOST_BYTES + 1)) for call in CALLS if not call.startswith("long_")]


def log_of(rng, events, clients=16, keys=1_000):
    """A log of a store with one copy, in which calls overlap."""
    held, written, lines, pending = {}, 0, [], {}
    while len(lines) < events:
        client = rng.randrange(clients)
        if client in pending:
            lines.append(json.dumps(["end", f"client{client}", pending.pop(client)]))
            continue
        key = f"key:{rng.randrange(keys)}"
        if rng.random() < 0.5:
            written += 1
            held[key] = written
            lines.append(json.dumps(["begin", f"client{client}", ["w", key, written]]))
            pending[client] = "ok"
        else:
            lines.append(json.dumps(["begin", f"client{client}", ["r", key]]))
            pending[client] = held.get(key)
    return ("\n".join(lines) + "\n").encode()


def large(module, library, data):
    """Whether the calls on a large log answer as the library does, in at most three times its time. The seconds of judging are kept."""
    for call, runs in (("log_judge", 2), ("log_explain_page", 1)):
        times, is_same = [], True
        for _ in range(runs):
            begun = time.monotonic()
            due = library.ask(call, data)
            middle = time.monotonic()
            found = module.ask(call, data)
            times.append((middle - begun, time.monotonic() - middle))
            is_same &= found == (*due, 0)
        native, wasm = (min(column) for column in zip(*times))
        print(f"{call} of a log of {len(data)} bytes: {native:.2f} s natively, {wasm:.2f} s by the module, {wasm / native:.2f} times", flush=True)
        SECONDS[call] = native
        yield f"{call} of a large log", is_same
        yield f"{call} of a large log: {wasm:.2f} s, natively {native:.2f} s", wasm <= MOST_TIMES * native


def ended(module, library, rng, limits):
    """Whether a call answers as usual or says that there is no memory, wherever memory ends, and whether the next call is right."""
    small = ("judge", b'["memory",[[["w",0,1]],[["r",0,1]]]]')
    after, least = (*library.ask(*small), 0), module.memory_after(*small)
    for call in CALLS:
        data = log_of(rng, 6_000) if call.startswith("log_") else json.dumps(random_memories.wide(rng)[0]).encode()
        due, most, seen = library.ask(call, data), module.memory_after(call, data), set()
        for step in range(limits + 1):
            module.said(limit=least + (most - least) * step // limits)
            status, text, taken = module.ask(call, data)
            seen.add(status)
            is_right = (status, text) in (due, (NO_MEMORY, b""))
            yield f"{call} with memory that ends, {step} of {limits}: {status}, {taken} left", is_right and taken == 0
            yield f"the call after {call} with memory that ended, {step} of {limits}", module.ask(*small) == after
        is_both = due[0] in seen and (NO_MEMORY in seen or most == least)
        yield f"memory ends for {call} at some limits, and suffices at the last: {sorted(seen)}", is_both
    module.said(limit=0)


def again(module, rng, count):
    """Whether many calls leave nothing, and take no more memory than the first ones."""
    inputs = [(call, data_of(rng, call)) for call in CALLS for _ in range(3)]
    first = 0
    for number in range(count):
        head, _ = module.said(call=inputs[number % len(inputs)][0], data=inputs[number % len(inputs)][1])
        if head["taken"]:
            yield f"memory left after call {number}: {head['taken']}", False
        if number == 2 * len(inputs):
            first = head["memory"]
    yield f"the memory after {count} calls is that of the first ones: {head['memory']}, {first}", head["memory"] == first


def made_in(room):
    """Has release/wasm.sh make the module and the page."""
    done = subprocess.run([ROOT / "release" / "wasm.sh", "--out", room, "--unproved"], capture_output=True, text=True, check=False)
    if done.returncode:
        print(done.stdout[-1000:] + done.stderr[-3000:])
    return room if done.returncode == 0 else None


def main():
    parser = argparse.ArgumentParser(description=__doc__, formatter_class=argparse.RawDescriptionHelpFormatter)
    parser.add_argument("seed", type=int)
    parser.add_argument("count", type=int)
    parser.add_argument("--long", action="store_true")
    parser.add_argument("--made", type=pathlib.Path)
    parser.add_argument("--pictures", type=pathlib.Path)
    parser.add_argument("--library", type=pathlib.Path)
    given, total = with_program(parser), [0, 0]
    rng = random.Random(given.seed)

    def add(cases):
        total[:] = [sum(pair) for pair in zip(total, counted(cases))]

    with tempfile.TemporaryDirectory(prefix="wasm-") as folder:
        room = pathlib.Path(folder)
        add(heap_cases(room))
        add(call_cases(room))
        made = given.made or made_in(room / "made")
        if not made:
            end(total[0], total[1] + 1)
        library = Library((given.library or made / "library.a").resolve(), room)
        with Module(made / "causal_judge.wasm") as module:
            add([("the module has the library's calls", module.said(calls=True)[0]["calls"] == sorted(CALLS))])
            inputs = [(call, data_of(rng, call)) for call in itertools.islice(itertools.cycle(CALLS), given.count)]
            add(compared(module, library, inputs))
            if given.count >= 40 * len(CALLS):
                add((f"some inputs of {call} have status {status}", SEEN[call, status]) for call in CALLS for status in (0, 1))
            add(compared(module, library, hostile()))
            add(compared(module, library, very_long()))
            add(ended(module, library, rng, 60 if given.long else 12))
            add(again(module, rng, MANY_CALLS))
        log = room / "large.jsonl"
        log.write_bytes(log_of(random.Random(7), EVENTS))
        with Module(made / "causal_judge.wasm") as module:
            add(large(module, library, log.read_bytes()))
        skipped = judge_page.tried(made / "causal_judge.html", room, library, inputs, log, SECONDS["log_judge"], add, given.pictures)
    end(*total, skipped)


if __name__ == "__main__":
    main()
