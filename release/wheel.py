#!/usr/bin/env python3
"""Makes a Python wheel that carries the program and the package causal_judge, with the same bytes each time.

    python3 release/wheel.py PROGRAM PACKAGE DATA VERSION GLIBC_MINOR MACHINE OUTDIR

PACKAGE is the folder of the package, and DATA one whose files are installed below the prefix of the environment. GLIBC_MINOR is the least
minor version of the C library that the program wants, as 34, and MACHINE its processor, x86_64 or aarch64. Times are those of
SOURCE_DATE_EPOCH, and files are sorted.
"""

import base64
import hashlib
import os
import pathlib
import sys
import time
import zipfile

NAME = "causal_judge"
PLUGIN = "[pytest11]\ncausal_judge = causal_judge.pytest_plugin\n"


def record(data):
    """The sum of a file as a wheel's RECORD has it."""
    return "sha256=" + base64.urlsafe_b64encode(hashlib.sha256(data).digest()).rstrip(b"=").decode()


def below(folder):
    """The files of a folder with their paths below it, without what Python compiles."""
    for path in folder.rglob("*"):
        if path.is_file() and "__pycache__" not in path.parts:
            yield path.relative_to(folder), path.read_bytes()


def metadata(version):
    """What the file METADATA says."""
    lines = [
        "Metadata-Version: 2.1",
        f"Name: {NAME}",
        f"Version: {version}",
        "Summary: Judges recorded histories of replicated objects by causal consistency",
        "Requires-Python: >=3.10",
        "",
    ]
    return "\n".join(lines).encode()


def files_of(program, package, data, version, tag):
    """The files of the wheel: their names, their bytes and their modes, without RECORD."""
    info, carried = f"{NAME}-{version}.dist-info", f"{NAME}-{version}.data"
    yield f"{info}/METADATA", metadata(version), 0o644
    yield f"{info}/WHEEL", f"Wheel-Version: 1.0\nGenerator: release/wheel.py\nRoot-Is-Purelib: false\nTag: {tag}\n".encode(), 0o644
    yield f"{info}/entry_points.txt", PLUGIN.encode(), 0o644
    yield f"{carried}/scripts/{NAME}", program.read_bytes(), 0o755
    for path, content in below(package):
        yield f"{NAME}/{path}", content, 0o644
    for path, content in below(data):
        yield f"{carried}/data/{path}", content, 0o644


def main():
    program, package, data = map(pathlib.Path, sys.argv[1:4])
    version, minor, machine, out = sys.argv[4:]
    tag = f"py3-none-manylinux_2_{minor}_{machine}"
    files = sorted(files_of(program, package, data, version, tag))
    name = f"{NAME}-{version}.dist-info/RECORD"
    rows = [f"{path},{record(content)},{len(content)}" for path, content, _ in files] + [f"{name},,"]
    files.append((name, ("\n".join(rows) + "\n").encode(), 0o644))
    moment = time.gmtime(max(int(os.environ["SOURCE_DATE_EPOCH"]), 315532800))[:6]
    with zipfile.ZipFile(pathlib.Path(out) / f"{NAME}-{version}-{tag}.whl", "w") as wheel:
        for path, content, mode in files:
            entry = zipfile.ZipInfo(path, moment)
            entry.create_system, entry.external_attr, entry.compress_type = 3, (0o100000 | mode) << 16, zipfile.ZIP_DEFLATED
            wheel.writestr(entry, content, compresslevel=9)


if __name__ == "__main__":
    main()
