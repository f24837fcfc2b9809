#!/usr/bin/env python3
"""Takes the empty table out of a WebAssembly module, which wasm-opt of Debian bookworm cannot lower.

    no_table.py MODULE.wasm OUT.wasm

The linker leaves a table of no element also where nothing is called through a pointer. A module with an element segment, or with a table
that is not empty, is refused.
"""

import pathlib
import sys

TABLE, ELEMENTS = 4, 9


def number(data, at):
    """An unsigned LEB128 number, and the place after it."""
    value = shift = 0
    while True:
        byte = data[at]
        value |= (byte & 127) << shift
        at, shift = at + 1, shift + 7
        if byte < 128:
            return value, at


def sections(data):
    """The sections: number, whole bytes, content."""
    if data[:8] != b"\0asm\1\0\0\0":
        sys.exit("no WebAssembly module of version 1")
    at = 8
    while at < len(data):
        begin, kind = at, data[at]
        size, at = number(data, at + 1)
        yield kind, data[begin : at + size], data[at : at + size]
        at += size


def is_empty(table):
    """Whether a section has tables of function references of no element alone."""
    count, at = number(table, 0)
    for _ in range(count):
        limits = table[at + 1]
        least, at = number(table, at + 2)
        most, at = number(table, at) if limits & 1 else (0, at)
        if least or most:
            return False
    return at == len(table)


def main():
    source, to = map(pathlib.Path, sys.argv[1:])
    data, kept = source.read_bytes(), [b"\0asm\1\0\0\0"]
    for kind, whole, content in sections(data):
        if kind == ELEMENTS or (kind == TABLE and not is_empty(content)):
            sys.exit(f"{source}: its table has elements")
        if kind != TABLE:
            kept.append(whole)
    to.write_bytes(b"".join(kept))


main()
