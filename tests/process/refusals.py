#!/usr/bin/env python3
"""Has a program say why inputs are refused, and compares what it says with docs/refusals.md and with what a plain reader finds.

    python3 tests/process/refusals.py SEED COUNT -- PROGRAM

Each row of the tables of docs/refusals.md has the line of a refusal, the words of a command, an input and the line that `--why` adds: the
program has to write both lines, and end with status 1. An input that begins with `python:` is what that expression gives. On a log of
events the second line is always there, and FORMS in it stands for what the page's last block says.

Then it gives the program so many mangled inputs (of mangled.py) with `--why`. Where one is refused, the first line has to be that of the
plain reader, and the second has to be one line of printable ASCII that names a place which is right: the operation or the step that it
names begins at the byte that it names, a text that is no JSON goes wrong where Python's own reader says so, at the line and the column
that are named, and an operation has the fault that is told. Where one is not refused, standard error stays empty.
"""

import argparse
import json
import pathlib
import random
import re
import subprocess
import sys

import folders  # noqa: F401
import mangled
import replay
from command_words import order_of, with_program
from counting import end
from objects import KEYED, MOST_KEY, OBJECTS, is_number

PAGE = pathlib.Path(__file__).resolve().parents[2] / "docs" / "refusals.md"
ROW = re.compile(r"\| `(refused [^`]*)` \| `([^`]*)` \| `+ ?(.*?) ?`+ \| `+ ?(.*?) ?`+ \|")
COMMANDS = (("judge",), ("judge", "--long"), ("check",), ("explain", "--json"), ("refute",), ("refute", "--long"), ("replay",))
PAIRED = ("check", "refute")
OPERATION = re.compile(r"session (\d+), operation (\d+) \(byte (\d+)\): (.*)")
STEP = re.compile(r"step (\d+) \(byte (\d+)\): ")
NO_JSON = re.compile(
    r"the text is no JSON: (?P<fault>.*) at byte (?P<byte>\d+)(?: \(line (?P<line>\d+), column (?P<column>\d+)\))?"
    r"(?:, (?:where|which) [^;]*)?(?:; this looks like a log of events: .*)?"
)
BYTE = re.compile(r"[( ]byte (\d+)")
BLANKS = re.compile(r"[ \t\n\r]*")
MOST_DEEP = 127
sys.set_int_max_str_digits(0)


def no_number(word):
    """Python reads NaN and Infinity, which are no JSON."""
    raise ValueError(word)


DECODER = json.JSONDecoder(parse_int=replay.number_of, parse_float=replay.number_of, parse_constant=no_number)


def rows_of(page):
    """The rows of the table: a line, the words of a command, an input and a second line."""
    forms = page.split("\n    ")[-1].strip()
    for found in ROW.finditer(page):
        line, words, text, why = found.groups()
        why = why.replace("FORMS", forms)
        made = eval(text.removeprefix("python:")) if text.startswith("python:") else text  # pylint: disable=eval-used
        yield line, words.split(), made.encode(), why


def said(program, words, data):
    """The status of a run and the two outputs."""
    asking = [] if words[0] == "events" else ["--why"]
    done = subprocess.run([*program, *words, *asking], input=data, capture_output=True, check=False, timeout=120)
    return done.returncode, done.stdout, done.stderr


def is_as_shown(program, row):
    """Whether the program says of an input of the page what the page says."""
    line, words, data, why = row
    found = said(program, words, data)
    if found == (1, b"", f"{line}\n{why}\n".encode()):
        return True
    print(f"{' '.join(words)}: {found!r}, and not {line!r} and {why!r}", flush=True)
    return False


def after_blanks(text, at):
    return BLANKS.match(text, at).end()


def place_of(text, path):
    """Where the value at a path of indices begins in a JSON text, and the value."""
    at = after_blanks(text, 0)
    for index in path:
        if text[at] != "[":
            raise ValueError("no list")
        at = after_blanks(text, at + 1)
        for _ in range(index):
            at = after_blanks(text, DECODER.raw_decode(text, at)[1])
            if text[at] != ",":
                raise ValueError("no such element")
            at = after_blanks(text, at + 1)
    return at, DECODER.raw_decode(text, at)[0]


def byte_of(text, at):
    return len(text[:at].encode())


def begins_at(data, path, byte):
    """Whether the value at a path of indices begins at a byte."""
    text = data.decode()
    return byte_of(text, place_of(text, path)[0]) == byte


def fault_in(name, operation):
    """What has to be said of an operation that is none of the object's, in part."""
    if type(operation) is not list or not operation or type(operation[0]) is not str:
        return " is no operation of "
    arguments, keyed = OBJECTS[name].arguments, name in KEYED
    if operation[0] not in arguments:
        return " is no word of "
    if keyed and len(operation) < 2:
        return "it lacks its key"
    if keyed and not is_number(operation[1], MOST_KEY):
        return "the key "
    many = 1 + keyed + arguments[operation[0]]
    if len(operation) < many:
        return "it lacks its "
    if arguments[operation[0]] and not is_number(operation[many - 1]):
        return " is no whole number below 18446744073709551616"
    if len(operation) > many + 1:
        return f" has more than {many + 1} elements"
    return "it lacks its return" if len(operation) == many else "the return "


def is_operation_right(base, data, found):
    """Whether the operation that a line names is where the line says, and has the fault that it tells of."""
    session, index, byte, words = int(found[1]), int(found[2]), int(found[3]), found[4]
    text = data.decode()
    at, operation = place_of(text, (*base, 1, session, index))
    _, name = place_of(text, (*base, 0))
    if words == "a known return after an unknown one of its session":
        return byte_of(text, at) == byte
    return byte_of(text, at) == byte and fault_in(name, operation) in words


def fault_of_python(data):
    """The byte where Python's reader stops in a text that is no JSON, and whether it begins a token there."""
    try:
        DECODER.decode(data.decode())
    except UnicodeDecodeError as error:
        return error.start, True
    except json.JSONDecodeError as error:
        begins = error.msg.startswith(("Expecting value", "Expecting ',' delimiter", "Expecting property name", "Extra data"))
        return byte_of(error.doc, error.pos), begins
    except (ValueError, RecursionError):
        pass
    return None, False


def is_too_deep(data, byte):
    """Whether a list or an object begins at a byte in as many others as there may be."""
    outside = re.sub(rb'"(?:[^"\\]|\\.)*"', b"", data[:byte], flags=re.DOTALL)
    depth = sum((letter in b"[{") - (letter in b"]}") for letter in outside)
    return depth == MOST_DEEP and data[byte : byte + 1] in (b"[", b"{")


def is_text_place_right(data, fault):
    """Whether the line and the column that are named are those of the byte, and are named where it is not on the first line."""
    before = data[: int(fault["byte"])].split(b"\n")
    if len(before) == 1:
        return fault["line"] is None
    column = len(before[-1].decode()) + 1
    return (fault["line"], fault["column"]) == (str(len(before)), str(column))


def is_fault_right(data, byte):
    """Whether a text goes wrong at a byte. Python goes on into numbers and words that are none: then it stops in the token of the byte.
    Of texts, colons, depths and numbers it says another place, or none."""
    stop, begins = fault_of_python(data)
    if not begins:
        return True
    between = re.sub(rb'^"(?:[^"\\]|\\.)*"[ \t\n\r]*', b"", data[byte:stop])
    return byte <= stop and not re.search(rb"[][{},:\s]", between)


def is_place_right(words, data, why):
    """Whether the places that a line names are places of the input, and what it names is there."""
    if any(int(byte) > len(data) for byte in BYTE.findall(why)):
        return False
    base = (0,) if words[0] in PAIRED else ()
    operation, step, fault = OPERATION.fullmatch(why), STEP.match(why), NO_JSON.fullmatch(why)
    if operation:
        return is_operation_right(base, data, operation)
    if step:
        return begins_at(data, (2, int(step[1])), int(step[2]))
    if not fault:
        return True
    if fault["fault"].startswith("more than 127 lists"):
        return is_too_deep(data, int(fault["byte"]))
    return is_text_place_right(data, fault) and is_fault_right(data, int(fault["byte"]))


def is_right(words, data, due, found):
    """Whether the outcome of a run is right."""
    status, _, errors = found
    if status != 1 or due[0] != 1:
        return status == due[0] and errors == b""
    lines = errors.decode("ascii").split("\n")
    if len(lines) != 3 or lines[2] or f"{lines[0]}\n" != due[2]:
        return False
    return all(" " <= letter <= "~" for letter in lines[1]) and is_place_right(words, data, lines[1])


def tried(program, seed, count):
    """Whether the outcome of each mangled input is right."""
    rng = random.Random(seed)
    for _ in range(count):
        words = rng.choice(COMMANDS)
        data = mangled.mangled(rng, words[0])
        due, found = mangled.wanted(order_of(list(words)), data), said(program, words, data)
        holds = is_right(words, data, due, found)
        if not holds:
            print(f"{' '.join(words)} < {mangled.kept(words[0], data)}: {found!r}, due {due!r}", flush=True)
        yield holds


def main():
    parser = argparse.ArgumentParser(description=__doc__, formatter_class=argparse.RawDescriptionHelpFormatter)
    parser.add_argument("seed", type=int)
    parser.add_argument("count", type=int)
    given = with_program(parser)
    rows = list(rows_of(PAGE.read_text(encoding="utf-8")))
    numbers = {line.split()[1] for line, *_ in rows}
    cases = [is_as_shown(given.program, row) for row in rows]
    cases += [number in numbers for number in "1 2 3 4 5 6 7 9 10 20 21 23 26 27 28 29 30".split()]
    cases += tried(given.program, given.seed, given.count)
    end(sum(cases), len(cases) - sum(cases))


if __name__ == "__main__":
    main()
