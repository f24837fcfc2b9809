#!/usr/bin/env python3
"""Builds the program and the library for arm64 Linux, from the libraries that the gate proved.

    python3 release/arm64/build.py OUT [--functions]

It takes the proved libraries that `./check` left in crates/*/out/rlib. `rattle build` proves each top crate over them for arm64, and
compiles it by the same LLVM as for x86-64. There is no second compiler for arm64, and `rt ci` neither builds nor runs what this script
makes.

Where `rt check` or `rt lib` ran in this working tree before `./check`, or after it, the libraries are theirs, and may be older than the
files: then BUILD says so, and release/build.sh refuses what is made of them. `./check` in a fresh clone leaves those of the gate.

A program takes nine C functions besides those of the C library, which the kit has for x86-64 alone: here they are those in heap.c and
process.c. No proof covers them; tests/process/arm64_functions.py tries them. OUT gets:

    causal_judge                                the program: it runs with glibc 2.34 or later
    libcausal_judge.a, libcausal_judge.so       the library, with the C functions of heap.c
    BUILD                                       the commit, the kit, what was proved, and the sums of these files

`--functions` makes the objects of the C functions alone, in a second. It needs the Rattle kit and Debian's C library for arm64:

    apt-get install libc6-arm64-cross libc6-dev-arm64-cross libgcc-12-dev-arm64-cross
"""

import argparse
import hashlib
import pathlib
import re
import shutil
import subprocess
import sys
import tempfile

HERE = pathlib.Path(__file__).resolve().parent
sys.path.insert(0, str(HERE.parent))
from proved import CRATES, ROOT, crates_below, crates_listed, kit_folder, library_of, words_for  # noqa: E402

TARGET = "aarch64-unknown-linux-gnu"
INSTALLS = "apt-get install libc6-arm64-cross libc6-dev-arm64-cross libgcc-12-dev-arm64-cross"
C_LIBRARY = pathlib.Path("/usr/aarch64-linux-gnu")
COMPILER_LIBRARIES = pathlib.Path("/usr/lib/gcc-cross/aarch64-linux-gnu")
OF_C_LIBRARY = ("Scrt1.o", "crti.o", "crtn.o", "ld-linux-aarch64.so.1", "libc.so.6", "libc_nonshared.a", "libgcc_s.so.1", "libm.so.6")
OF_COMPILER = ("crtbeginS.o", "crtendS.o", "libgcc.a")
FUNCTIONS = ("heap", "process")
COMPILED = ("-march=armv8-a", "-O2", "-fPIC", "-Wall", "-Wextra", "-Werror", "-nostdinc")
PROGRAM, ARCHIVE, SHARED = "causal_judge", "libcausal_judge.a", "libcausal_judge.so"
HARDENED = ("-z", "relro", "-z", "now", "-z", "noexecstack")
LINKED_SHARED = ("-m", "aarch64linux", "-shared", "-s", "--build-id=none", "-soname", SHARED, *HARDENED)
# What the line of a proof says where less was proved than the gate asks for.
LESS = ("incremental=", "hides=", "bugs=", "may-abort=", "partial=", "empty=")


def run(words, folder):
    """Runs a command, and ends with what it said where it fails."""
    done = subprocess.run(words, cwd=folder, check=False, stdin=subprocess.DEVNULL, capture_output=True, text=True, errors="replace")
    if done.returncode != 0:
        sys.exit(f"{done.stdout}{done.stderr}\n{words[0]}: status {done.returncode}, in {folder}")
    return done.stdout + done.stderr


def compiler_libraries():
    """The folder with the libraries of a C compiler for arm64."""
    found = sorted(COMPILER_LIBRARIES.glob("*/libgcc.a"))
    if not found or not (C_LIBRARY / "lib" / "Scrt1.o").is_file():
        sys.exit(f"the C library for arm64 is missing: {INSTALLS}")
    return found[-1].parent


def make_toolchain(kit, folder):
    """Makes the folder that `rattle build` and `rattle-link` take tools and the C library from."""
    (folder / "bin").mkdir(parents=True)
    (folder / "lib").mkdir()
    for tool in (kit / "toolchain" / "bin").iterdir():
        (folder / "bin" / tool.name).symlink_to(tool)
    libraries = compiler_libraries()
    for name in OF_C_LIBRARY:
        shutil.copy(C_LIBRARY / "lib" / name, folder / "lib" / name)
    for name in OF_COMPILER:
        shutil.copy(libraries / name, folder / "lib" / name)


def compile_function(kit, source, to):
    """Compiles a file of C for arm64, by the kit's clang."""
    headers = ["-isystem", compiler_libraries() / "include", "-isystem", C_LIBRARY / "include"]
    run([kit / "toolchain" / "bin" / "clang", f"--target={TARGET}", *COMPILED, *headers, "-c", source, "-o", to], HERE)


def link(kit, toolchain, to, *files):
    """Links a program for arm64."""
    run([kit / "bin" / "rattle-link", "--target", TARGET, "--toolchain", toolchain, "-o", to, *files], HERE)


def join_library(kit, toolchain, made, function, out):
    """Makes one archive of the library and the C functions that it takes memory by, and a shared object of it."""
    with tempfile.TemporaryDirectory() as room:
        run([kit / "toolchain" / "bin" / "llvm-ar", "x", made], room)
        objects = [*sorted(pathlib.Path(room).iterdir()), function]
        run([kit / "toolchain" / "bin" / "llvm-ar", "rcsD", out / ARCHIVE, *objects], room)
        libraries = [toolchain / "lib" / name for name in ("libc.so.6", "libgcc.a")]
        run([kit / "toolchain" / "bin" / "ld.lld", *LINKED_SHARED, "-o", out / SHARED, *objects, *libraries], room)


def build(name, listed, kit, toolchain, to):
    """Proves a top crate for arm64 and compiles it. Returns the line that says what was proved."""
    words = [kit / "bin" / "rattle", "build", *words_for(name, listed, kit), "--logic-built", kit / "logic_built"]
    said = run([*words, "--target", TARGET, "--toolchain", toolchain, "-o", to], CRATES / name)
    proved = re.findall(r"^logic=proved .*", said, re.M)
    if not proved or any(word in proved[-1] for word in LESS):
        sys.exit(f"{said}\n{name}: nothing says that it is proved as the gate asks")
    return re.sub(r" threads=\S*", "", proved[-1])


def makers(listed):
    """Who made the libraries: `rt check` and `rt lib` leave a stamp beside each of theirs, and the gate leaves none."""
    names = {lower for top in ("causal_judge", "causal_judge_library") for lower in crates_below(top, listed)}
    stamped = sorted(name for name in names if (library_of(name).parent / "stamp").is_file())
    return f"of rt check: {' '.join(stamped)}" if stamped else "of the gate"


def commit():
    """The commit, and whether files differ from it."""
    changed = run(["git", "status", "--porcelain"], ROOT)
    return run(["git", "rev-parse", "HEAD"], ROOT).strip() + (", with files that differ from it" if changed else "")


def main():
    parser = argparse.ArgumentParser(description=__doc__, formatter_class=argparse.RawDescriptionHelpFormatter)
    parser.add_argument("out", metavar="OUT", type=pathlib.Path)
    parser.add_argument("--functions", action="store_true")
    given = parser.parse_args()
    kit, out = kit_folder(), given.out.resolve()
    out.mkdir(parents=True, exist_ok=True)
    if given.functions:
        for name in FUNCTIONS:
            compile_function(kit, HERE / f"{name}.c", out / f"{name}.o")
        return
    for name in (PROGRAM, ARCHIVE, SHARED, "BUILD"):
        (out / name).unlink(missing_ok=True)
    with tempfile.TemporaryDirectory(prefix="arm64-") as room:
        proved = build_all(kit, pathlib.Path(room), out)
    lines = [f"commit {commit()}", f"kit {(kit / 'KIT-ID').read_text().strip()}"]
    lines.append(f"libraries {makers(crates_listed())}")
    lines += [f"proved {name} {line}" for name, line in proved.items()]
    lines += [f"{name} sha256 {hashlib.sha256((out / name).read_bytes()).hexdigest()}" for name in (PROGRAM, ARCHIVE, SHARED)]
    (out / "BUILD").write_text("\n".join(lines) + "\n")


def build_all(kit, room, out):
    """Builds the program and the library, and returns what was proved of each."""
    listed, toolchain = crates_listed(), room / "toolchain"
    make_toolchain(kit, toolchain)
    for name in FUNCTIONS:
        compile_function(kit, HERE / f"{name}.c", room / f"{name}.o")
    crates = {"causal_judge": room / "program.o", "causal_judge_library": room / "library.a"}
    proved = {name: build(name, listed, kit, toolchain, to) for name, to in crates.items()}
    link(kit, toolchain, out / PROGRAM, room / "program.o", room / "process.o", room / "heap.o")
    join_library(kit, toolchain, room / "library.a", room / "heap.o", out)
    return proved


if __name__ == "__main__":
    main()
