#!/usr/bin/env python3
"""Has Rattle make the static library of a crate, and keeps the LLVM module that it hands to clang.

    capture.py MODULE.bc [--archive FILE.a] [--crate NAME]

`rattle check` proves the crate over the libraries that the gate left in crates/*/out/rlib, and `rattle build` compiles what this check
proved. Its clang is a script that keeps a copy of the module, and then runs the kit's own. Both are for the processor x86-64 without
extensions, so that the module names none that WebAssembly lacks. The last line of the check has to say that the crate is proved, with no
word that a gate refuses.
"""

import argparse
import pathlib
import re
import shlex
import subprocess
import sys
import tempfile

sys.path.insert(0, str(pathlib.Path(__file__).resolve().parents[1]))
from proved import CRATES, crates_listed, kit_folder, words_for  # noqa: E402

TRUSTED = r"logic-built=trusted libraries-built=trusted statements=trusted"
VERDICT = re.compile(rf"^logic=proved functions=\d+ axioms=\d+ target=\S+ sum=\S+ native=\S+ {TRUSTED}$")


def make_toolchain(room, at):
    """The kit's toolchain, with a clang that keeps what it is given. The environment does not reach it."""
    (room / "bin").mkdir(parents=True)
    (room / "lib").symlink_to(at / "toolchain" / "lib")
    for tool in (at / "toolchain" / "bin").iterdir():
        if tool.name != "clang":
            (room / "bin" / tool.name).symlink_to(tool)
    clang = room / "bin" / "clang"
    keep = f'for word in "$@"; do case $word in *.bc) cp "$word" {shlex.quote(str(room))}/module.bc ;; esac; done'
    clang.write_text(f'#!/bin/bash\n{keep}\nexec -a "$0" {shlex.quote(str(at / "toolchain" / "bin" / "clang"))} "$@"\n')
    clang.chmod(0o755)


def run(line, crate):
    how = {"stdin": subprocess.DEVNULL, "stdout": subprocess.PIPE, "stderr": subprocess.STDOUT, "text": True, "errors": "replace"}
    ran = subprocess.run(list(map(str, line)), cwd=CRATES / crate, check=False, **how)
    if ran.returncode:
        sys.exit(f"capture.py: {line[1]} ended with status {ran.returncode}: {ran.stdout[-2000:]}")
    return ran.stdout


def main():
    parser = argparse.ArgumentParser(description=__doc__, formatter_class=argparse.RawDescriptionHelpFormatter)
    parser.add_argument("module", type=pathlib.Path)
    parser.add_argument("--archive", type=pathlib.Path)
    parser.add_argument("--crate", default="causal_judge_library")
    given, at = parser.parse_args(), kit_folder()
    given.module = given.module.resolve()
    with tempfile.TemporaryDirectory(prefix="capture-") as folder:
        room = pathlib.Path(folder)
        make_toolchain(room / "toolchain", at)
        named = [*words_for(given.crate, crates_listed(), at), "--links", f"{given.crate}=", "--cpu", "x86-64"]
        rattle = at / "bin" / "rattle"
        said = run([rattle, "check", *named, "--logic-built", at / "logic_built", "-o", room / "checked"], given.crate)
        verdict = said.rstrip().split("\n")[-1]
        if not VERDICT.match(verdict):
            sys.exit(f"capture.py: the crate is not proved: {verdict}")
        build = [rattle, "build", *named, "--crate-checked", room / "checked", "--toolchain", room / "toolchain", "-o", room / "library.a"]
        run(build, given.crate)
        given.module.write_bytes((room / "toolchain" / "module.bc").read_bytes())
        if given.archive:
            given.archive.write_bytes((room / "library.a").read_bytes())
    print(verdict)


if __name__ == "__main__":
    main()
