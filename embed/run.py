#!/usr/bin/env python3
"""Builds the library and its samples, runs each on the examples, and compares what they answer with what the program does.

    python3 embed/run.py [--compare COUNT]

It builds crates/causal_judge_library and crates/causal_judge with rt, which proves them where that was not done, makes
embed/out/libcausal_judge.a and, for Python, embed/out/libcausal_judge.so, and then a sample for each language whose compiler is
there. It names those that it skips. Then refuse.c refuses each allocation of the calls on these examples in turn. With
--compare so many random inputs are put to the library and to the program, as compare.py does it. The last line says how many answers and
refusals passed, failed and were skipped, and it ends with status 1 where one failed. Where CAUSAL_JUDGE names a program, that one
answers in the place of crates/causal_judge/out/causal_judge.
"""

import argparse
import pathlib
import shutil
import subprocess
import sys

HERE = pathlib.Path(__file__).resolve().parent
ROOT = HERE.parent
sys.path.insert(0, str(ROOT / "tests"))
import compare  # noqa: E402
import folders  # noqa: E402, F401
from causal_judge import ANSWERED, COMMANDS  # noqa: E402
from compare import PROGRAM  # noqa: E402
from counting import end  # noqa: E402

OUT = HERE / "out"
ARCHIVE = ROOT / "crates" / "causal_judge_library" / "out" / "libcausal_judge_library.a"
C = ("cc", "-std=c11", "-O2", "-Wall", "-Wextra", "-Werror")

# The languages of the samples, with what installs each one's compiler.
INSTALLS = {"C": "apt-get install gcc", "Rust": "apt-get install rustc", "Go": "apt-get install golang-go"}


def run(*words, cwd=HERE):
    subprocess.run(list(map(str, words)), cwd=cwd, check=True, stdout=sys.stderr)


def build_program():
    if not pathlib.Path(PROGRAM).is_file():
        run("rt", "run", "--", "--help", cwd=ROOT / "crates" / "causal_judge")


def kit():
    """The folder of the toolchain."""
    page = subprocess.run(["rt", "doc"], check=True, capture_output=True, text=True).stdout.split()[-1]
    return pathlib.Path(page).parent


def build_library():
    """Makes one archive of the library and of what it takes memory by, and a shared object of it."""
    if not ARCHIVE.is_file():
        run("rt", "lib", cwd=ARCHIVE.parent.parent)
    shutil.rmtree(OUT, ignore_errors=True)
    OUT.mkdir()
    run("ar", "x", ARCHIVE, cwd=OUT)
    run("ar", "x", kit() / "c" / "liblibc_c.a", "heap.pic.o", cwd=OUT)
    objects = sorted(OUT.glob("*.o"))
    run("ar", "rcs", "libcausal_judge.a", *objects, cwd=OUT)
    run("cc", "-shared", "-o", "libcausal_judge.so", *objects, cwd=OUT)
    for it in objects:
        it.unlink()


def samples():
    """The words that start each sample that can be built here."""
    if shutil.which("cc"):
        run(*C, "-o", OUT / "judge_c", "judge.c", OUT / "libcausal_judge.a")
        yield "C", [OUT / "judge_c"]
    if shutil.which("rustc"):
        run("rustc", "--edition", "2024", "-O", "-L", OUT, "-o", OUT / "judge_rs", "judge.rs")
        yield "Rust", [OUT / "judge_rs"]
    if shutil.which("go"):
        run("go", "build", "-o", OUT / "judge_go", "judge.go")
        yield "Go", [OUT / "judge_go"]
    yield "Python", [sys.executable, HERE / "causal_judge.py"]


def outcome(words, command, data):
    done = subprocess.run(list(map(str, [*words, command])), input=data, capture_output=True, check=False)
    return done.returncode, done.stdout, done.stderr


def outcome_due(command, data):
    """The outcome of a sample: what the program answers goes to standard output, and its refusal to standard error."""
    status, text = compare.of_program(command, data)
    return (status, text, b"") if status == ANSWERED else (status, b"", text)


def compared(due, inputs):
    """How many answers of the samples are the program's, how many are others, and how many were not asked for."""
    wrong, built = 0, set()
    for language, words in samples():
        built.add(language)
        differ = [key for key, answer in due.items() if outcome(words, key[1], inputs[key[0]]) != answer]
        print(f"{language}: {len(due)} answers, {len(differ)} other than the program's", *(f"{c} < {n}" for n, c in differ))
        wrong += len(differ)
    missing = [language for language in INSTALLS if language not in built]
    for language in missing:
        print(f"{language}: skipped, no compiler: {INSTALLS[language]}")
    return len(built) * len(due) - wrong, wrong, len(missing) * len(due)


def refused(due, inputs):
    """How many refused allocations the calls met as they should, how many calls did not, and how many were not tried."""
    if not shutil.which("cc"):
        return 0, 0, len(due)
    wraps = [f"-Wl,--wrap={name}" for name in ("malloc", "realloc", "free")]
    run(*C, *wraps, "-o", OUT / "refuse", "refuse.c", OUT / "libcausal_judge.a")
    many, wrong = 0, 0
    for name, command in due:
        status, text, _ = outcome([OUT / "refuse"], command, inputs[name])
        wrong += status != 0
        many += int(text or 0)
    print(f"{many} allocations refused, {wrong} calls at fault")
    return many, wrong, 0


def compared_at_random(count):
    """How many random inputs have the same answer of the library and the program, and how many others, and none that were skipped."""
    return *compare.compare(1, count, compare.THREADS), 0


def main():
    parser = argparse.ArgumentParser(description=__doc__, formatter_class=argparse.RawDescriptionHelpFormatter)
    parser.add_argument("--compare", type=int, default=0)
    given = parser.parse_args()
    build_program()
    build_library()
    inputs = {it.name: it.read_bytes() for it in sorted((ROOT / "examples").glob("*.json*"))} | {"nothing": b""}
    # Some calls answer an example, and the others refuse it.
    due = {(name, command): outcome_due(command, data) for name, data in inputs.items() for command in COMMANDS}
    counts = [compared(due, inputs), refused(due, inputs), compared_at_random(given.compare) if given.compare else (0, 0, 0)]
    end(*map(sum, zip(*counts)))


if __name__ == "__main__":
    main()
