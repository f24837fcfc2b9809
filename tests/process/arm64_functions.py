#!/usr/bin/env python3
"""Tries the C functions of release/arm64, which a program for arm64 takes in the place of the kit's.

    python3 tests/process/arm64_functions.py

The programs test_heap.c and test_process.c ask the same of the kit's own functions for x86-64, of those of release/arm64 as the system's
compiler makes them here, with its checks of memory, and of those for arm64, under qemu. They have to find nothing wrong in any of them. A
heap that hands out one block twice, and arguments that are a byte short, have to be found.

What the machine lacks is named as skipped, with the line that installs it.
"""

import pathlib
import shutil
import subprocess
import sys
import tempfile

import folders  # noqa: F401
from counting import counted, end

ROOT = pathlib.Path(__file__).resolve().parents[2]
ARM64 = ROOT / "release" / "arm64"
sys.path.insert(0, str(ARM64))
import build as arm64  # noqa: E402

WORDS = ["one", "", "two three"]
VARIABLES = {"EMPTY": "", "NAME": "grün"}
NAMES = {"heap": [], "process": WORDS}
NATIVE = ["-O1", "-g", "-Wall", "-Wextra", "-Werror"]
CHECKS = ["-fsanitize=address,undefined", "-fno-sanitize-recover=all"]
QEMU = ["qemu-aarch64", "-L", str(arm64.C_LIBRARY)]
# A text that stands once in a file, and what makes it wrong.
WRONG = {
    "heap": ("return tried_at(malloc(least_of(bytes, alignment)));", "static char one[99]; return tried_at(bytes + alignment ? one : NULL);"),
    "process": ("if (length == size)", "if (length + 1 == size)"),
}


def compiled(words, to):
    """Whether a compiler makes a program."""
    done = subprocess.run([*words, "-o", to, "-lpthread"], check=False, capture_output=True, text=True, errors="replace")
    if done.returncode != 0:
        print(done.stderr, flush=True)
    return done.returncode == 0


def finds_nothing(name, program, *before):
    """Whether a test finds nothing wrong."""
    variables = {**VARIABLES, **({"ASAN_OPTIONS": "allocator_may_return_null=1"} if name == "heap" else {})}
    how = {"cwd": program.parent, "env": variables, "capture_output": True, "text": True, "errors": "replace", "timeout": 300}
    done = subprocess.run([*map(shutil.which, before[:1]), *before[1:], f"./{program.name}", *NAMES[name]], check=False, **how)
    return done.returncode == 0 and done.stdout == f"{name}: as it should be\n"


def natively(name, room):
    """The cases of a test on this machine: with the functions as they are, with a wrong one, and with the kit's."""
    test, source, kit = ARM64 / f"test_{name}.c", ARM64 / f"{name}.c", arm64.kit_folder() / "c"
    right, wrong, text = room / f"{name}_right", room / f"{name}_wrong", source.read_text()
    yield f"{name}: natively", compiled(["cc", *NATIVE, *CHECKS, test, source], right) and finds_nothing(name, right)
    turned = room / f"{name}.c"
    turned.write_text(text.replace(*WRONG[name]))
    is_made = text.count(WRONG[name][0]) == 1 and compiled(["cc", *NATIVE, test, turned], wrong)
    yield f"{name}: a wrong one is found", is_made and not finds_nothing(name, wrong)
    own = room / f"{name}_kit"
    libraries = [kit / "libos_c.a", kit / "liblibc_c.a"]
    yield f"{name}: the kit's", compiled(["cc", *NATIVE, test, *libraries], own) and finds_nothing(name, own)


def for_arm64(name, room, kit, toolchain):
    """Whether a test finds nothing wrong with the functions for arm64."""
    objects, program = [room / f"test_{name}.o", room / f"{name}.o"], room / f"{name}_arm64"
    arm64.compile_function(kit, ARM64 / f"test_{name}.c", objects[0])
    arm64.compile_function(kit, ARM64 / f"{name}.c", objects[1])
    arm64.link(kit, toolchain, program, *objects)
    return finds_nothing(name, program, *QEMU)


def cases(room):
    """The cases that this machine can try, and prints why others are skipped."""
    for name in NAMES:
        if shutil.which("cc"):
            yield from natively(name, room)
    if lacks_arm64():
        return
    kit, toolchain = arm64.kit_folder(), room / "toolchain"
    arm64.make_toolchain(kit, toolchain)
    for name in NAMES:
        yield f"{name}: for arm64", for_arm64(name, room, kit, toolchain)


def lacks_arm64():
    """What the cases for arm64 lack, with the line that helps."""
    if not shutil.which(QEMU[0]):
        return "qemu-aarch64 is missing: apt-get install qemu-user"
    is_there = (arm64.C_LIBRARY / "lib" / "Scrt1.o").is_file() and any(arm64.COMPILER_LIBRARIES.glob("*/libgcc.a"))
    return "" if is_there else f"the C library for arm64 is missing: {arm64.INSTALLS}"


def main():
    if not shutil.which("rt"):
        print("arm64_functions: skipped: rt is missing: the Rattle kit has it")
        end(0, 0, 1)
    with tempfile.TemporaryDirectory(prefix="arm64-") as room:
        passed, failed = counted(cases(pathlib.Path(room)))
    skipped = [why for why in (lacks_arm64(), "" if shutil.which("cc") else "cc is missing: apt-get install gcc") if why]
    print(*(f"arm64_functions: skipped: {why}" for why in skipped), sep="\n", end="\n" if skipped else "")
    end(passed, failed, len(skipped))


if __name__ == "__main__":
    main()
