#!/usr/bin/env python3
"""Runs node/tests over the package for Node, packed and installed without a network in a folder of its own.

    python3 tests/process/node_package.py [--package FILE] [--module FILE] -- PROGRAM

The package is made by release/node_package.py, or FILE. It judges by the module causal_judge.wasm, that of release/out/wasm unless another
one is named, and PROGRAM says what each answer has to be. Without a module, which is named as skipped, PROGRAM itself judges in the place
of the module: then the recorder, the assertion and the command are tested, and not the judge.

Two packages of the same files have to be the same to the byte. Where redis-server and Debian's node-redis are there, clients of redis on
the loopback are recorded and judged; where tsc is there, it reads the types.
"""

import argparse
import hashlib
import os
import pathlib
import re
import shutil
import subprocess
import sys
import tempfile

import folders  # noqa: F401
from command_words import with_program
from counting import counted, end

ROOT = pathlib.Path(__file__).resolve().parents[2]
MODULE = ROOT / "release" / "out" / "wasm" / "causal_judge.wasm"
VERSION = (ROOT / "VERSION").read_text().strip()
LEAST_NODE, SECONDS = 20, 600
OF_DEBIAN = "/usr/share/nodejs"
RESULT = re.compile(r"^(not ok|ok) \d+ - (.*?)(?: # (SKIP|TODO)\s*(.*))?$")


def lack():
    """What this machine lacks for any of it, with the line that helps."""
    for tool in ("node", "npm"):
        if not shutil.which(tool):
            return f"{tool} is missing: https://nodejs.org has Node {LEAST_NODE} and later, or apt-get install nodejs npm"
    said = subprocess.run(["node", "--version"], check=True, capture_output=True, text=True).stdout.strip()
    is_old = int(said.removeprefix("v").split(".")[0]) < LEAST_NODE
    return f"node is {said}, and the package wants {LEAST_NODE} or later" if is_old else ""


def packed(module, out):
    """A package of the files as they are here."""
    out.mkdir()
    words = [sys.executable, ROOT / "release" / "node_package.py", module, ROOT, VERSION, out]
    done = subprocess.run(words, check=False, stdin=subprocess.DEVNULL, capture_output=True, text=True)
    if done.returncode != 0:
        print(done.stderr, flush=True)
        return None
    return out / done.stdout.strip()


def sum_of(path):
    """The sum of a file."""
    return hashlib.sha256(path.read_bytes()).hexdigest()


def installed(package, folder):
    """Whether the package installs in a fresh folder without a network."""
    folder.mkdir()
    (folder / "package.json").write_text('{"private":true,"type":"module"}')
    shutil.copy(package, folder)
    environment = {**os.environ, "npm_config_cache": str(folder / "cache"), "npm_config_update_notifier": "false"}
    words = ["npm", "install", "--offline", "--no-audit", "--no-fund", f"./{package.name}"]
    done = subprocess.run(words, cwd=folder, env=environment, check=False, stdin=subprocess.DEVNULL, capture_output=True, text=True)
    if done.returncode != 0:
        print(done.stdout, done.stderr, flush=True)
    return done.returncode == 0


def results(folder, program, is_native):
    """The names of the tests of the installed package, what came of each, and what was said."""
    shutil.copytree(ROOT / "node" / "tests", folder / "tests")
    environment = {**os.environ, "CAUSAL_JUDGE": program, "CAUSAL_JUDGE_EXAMPLES": str(ROOT / "examples"), "NODE_PATH": OF_DEBIAN}
    environment |= {"CAUSAL_JUDGE_BACKEND": "native" if is_native else "module"}
    names = sorted(path.name for path in (folder / "tests").glob("*.test.mjs"))
    words = ["node", "--import", "./tests/native_backend.mjs", "--test", "--test-reporter", "tap", *(f"tests/{name}" for name in names)]
    how = {"cwd": folder, "env": environment, "stdin": subprocess.DEVNULL, "stdout": subprocess.PIPE, "stderr": subprocess.STDOUT}
    done = subprocess.run(words, check=False, text=True, errors="replace", timeout=SECONDS, **how)
    found = [line for line in map(RESULT.match, done.stdout.splitlines()) if line]
    is_right = done.returncode == int(any(line[1] == "not ok" for line in found))
    if not is_right or any(line[1] == "not ok" for line in found):
        print(done.stdout, flush=True)
    return [(line[2], line[1] == "ok", line[3] and line[4]) for line in found], is_right


def main():
    parser = argparse.ArgumentParser(description=__doc__, formatter_class=argparse.RawDescriptionHelpFormatter)
    parser.add_argument("--package", type=pathlib.Path)
    parser.add_argument("--module", type=pathlib.Path, default=MODULE)
    given = with_program(parser)
    why = lack()
    if why:
        print(f"node_package: skipped: {why}")
        end(0, 0, 1)
    with tempfile.TemporaryDirectory(prefix="node-") as name:
        run(given, os.path.abspath(given.program[0]), pathlib.Path(name))


def run(given, program, room):
    """Packs, installs and tests, and ends the process."""
    has_module = bool(given.package) or given.module.is_file()
    module = given.module if has_module else "none"
    package = given.package or packed(module, room / "one")
    other = package if given.package else packed(module, room / "two")
    cases = [("it is packed", package is not None), ("the same bytes twice", package and other and sum_of(package) == sum_of(other))]
    cases += [("it installs without a network", package and installed(package, room / "here"))]
    passed, failed = counted(cases)
    skipped = []
    if failed:
        end(passed, failed)
    if not has_module:
        skipped.append(f"the module {given.module.name} is missing: release/wasm.sh makes it; the program judged in its place")
    found, is_right = results(room / "here", program, not has_module)
    skipped += [f"{name}: {why}" for name, _, why in found if why]
    print(*(f"node_package: skipped: {why}" for why in skipped), sep="\n", end="\n" if skipped else "")
    more = counted([("node --test", is_right and bool(found)), *((name, is_ok) for name, is_ok, why in found if not why)])
    end(passed + more[0], failed + more[1], len(skipped))


if __name__ == "__main__":
    main()
