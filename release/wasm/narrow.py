#!/usr/bin/env python3
"""Makes a module's 64-bit addresses 32-bit ones where wasm-opt of Debian bookworm leaves them: in loads and stores of lanes.

    narrow.py LOWERED.wat OUT.wat

The first is what wasm-opt's memory64-lowering writes as text, one instruction a line. Its version 108 forgets the loads that fill a vector
with one value or zeros, and the loads and stores of one lane: their address, the first operand, is put into an i32.wrap_i64. Where wasm-opt
has done so, nothing is changed.
"""

import re
import sys

FORGOTTEN = re.compile(r"\s*\(v128\.(load\d+_splat|load\d+_zero|load\d+x\d+_[su]|load\d+_lane|store\d+_lane)\b[^()]*$")
MARKS = re.compile(r"[()]")


def depth_of(line):
    """How many parentheses a line opens, less those that it closes. A string in a line has none: the module has no names or data there."""
    return sum(1 if mark == "(" else -1 for mark in MARKS.findall(line))


def narrowed(lines):
    """The lines with each forgotten address wrapped."""
    ends, depth, awaits = [], 0, False
    for line in lines:
        is_data = line.lstrip().startswith(("(data", "(import", "(export"))
        if awaits:
            awaits = False
            if not line.lstrip().startswith("(i32."):
                yield "(i32.wrap_i64\n"
                ends.append(depth)
        yield line
        depth += 0 if is_data else depth_of(line)
        if ends and depth == ends[-1]:
            ends.pop()
            yield ")\n"
        awaits = bool(FORGOTTEN.match(line))


def main():
    source, to = sys.argv[1:]
    with open(source, encoding="latin-1") as given, open(to, "w", encoding="latin-1") as made:
        made.writelines(narrowed(given))


main()
