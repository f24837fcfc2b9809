#!/usr/bin/env python3
"""Runs all tests of the process over a program, some side by side, and counts what passed.

    python3 tests/run.py [--long] [--size PERCENT] [--jobs N] [PART..]

The program is the one that CAUSAL_JUDGE names, or else crates/causal_judge/out/causal_judge. The parts are those of PARTS below, or
those that are named. Seeds and numbers of cases are fixed: `--size` makes the numbers smaller for a slow program, and `--long` makes
them as large as is worth hours. For each part a line says what came out, after the output of the part where something failed.

What a part needs and the machine lacks is named as skipped, with the line that installs it. The last line is
`N passed, M failed`, with `, K skipped` after it where something was, and the status is 1 where something failed.
"""

import argparse
import contextlib
import os
import pathlib
import shutil
import signal
import subprocess
import sys
import tempfile
import time
from concurrent.futures import ThreadPoolExecutor, as_completed
from typing import Callable, NamedTuple

import folders  # noqa: F401
from counting import end, read_last_line
from streams import is_unproved

ROOT = pathlib.Path(__file__).resolve().parent.parent
BUILT = ROOT / "crates" / "causal_judge" / "out" / "causal_judge"
ARCHIVE = ROOT / "crates" / "causal_judge_library" / "out" / "libcausal_judge_library.a"
MOST_SECONDS, MOST_LONG_SECONDS = 900, 12 * 3600
SHOWN_LINES, SHOWN_CHARACTERS = 40, 400
RUNNING = set()
INSTALLS = {
    "bash": "apt-get install bash",
    "cc": "apt-get install gcc",
    "ar": "apt-get install binutils",
    "java": "apt-get install default-jdk-headless",
    "javac": "apt-get install default-jdk-headless",
    "node": "apt-get install nodejs",
    "wasm-opt": "apt-get install binaryen",
}


class Given(NamedTuple):
    """What a run was asked for: the program, the percentage of the usual cases, whether it may take long, and a folder."""

    program: str
    size: int
    is_long: bool
    room: str

    def many(self, usual, longest):
        """A number of cases."""
        return str(max(1, (longest if self.is_long else usual) * self.size // 100))

    def of(self, name, *words):
        """The words that run a test over the program."""
        return [f"tests/process/{name}.py", *words, "--", self.program]

    def longer(self):
        return ["--long"] if self.is_long else []


class Part(NamedTuple):
    """A part: its name, the words after Python that run it, the tools that it needs, a file that has to be there and what makes it, and
    whether it is for --long alone, always or with a program that `rt try` built."""

    name: str
    words: Callable[[Given], list]
    tools: tuple = ()
    file: Callable[[Given], pathlib.Path] = lambda given: pathlib.Path(given.program)
    install: str = ""
    is_long: bool = False
    is_long_unproved: bool = False


class Ended(NamedTuple):
    """How a part ended: its counts, its seconds and what it said, or why it was skipped."""

    counts: tuple
    seconds: float = 0.0
    text: str = ""
    skipped: str = ""


def by_rattle(given):
    """The program as Rattle's own compiler makes it."""
    return pathlib.Path(f"{given.program}.by-rattle")


PARTS = (
    Part("tables", lambda given: given.of("tables")),
    Part("file_operands", lambda given: given.of("file_operands")),
    Part("progress", lambda given: given.of("progress")),
    Part("tables_by_rattle", lambda given: ["tests/process/tables.py", "--", str(by_rattle(given))], file=by_rattle, install="rt ci builds it"),
    Part("error_numbers", lambda given: ["tests/process/error_numbers.py"]),
    Part("architecture", lambda given: ["tests/process/architecture.py"]),
    Part("trusted", lambda given: ["tests/process/trusted.py"]),
    Part("documents", lambda given: given.of("documents", *given.longer()), ("bash",)),
    Part("python_package", lambda given: given.of("python_package", *given.longer())),
    Part("java_recorder", lambda given: given.of("java_recorder"), ("java", "javac")),
    Part("live_stores", lambda given: given.of("live_stores", *given.longer())),
    Part("driver_errors", lambda given: ["tests/process/driver_errors.py"], is_long=True),
    Part("cluster", lambda given: given.of("cluster", *given.longer())),
    Part("recorded_stores", lambda given: given.of("recorded_stores", given.many(1_000, 20_000))),
    Part("mangled", lambda given: given.of("mangled", "1", "--count", given.many(3_000, 200_000))),
    Part("refusals", lambda given: given.of("refusals", "1", given.many(2_000, 50_000))),
    Part("pieces", lambda given: given.of("pieces", "1", given.many(1_200, 20_000))),
    Part("long_pieces", lambda given: given.of("pieces", "5", given.many(20, 1_000), "400")),
    Part("replayed", lambda given: [*given.of("replayed", f"{given.room}/scripts", "--make", "17", given.many(240, 5_000)), "replay"]),
    Part("driven", lambda given: given.of("driven", "1", given.many(250, 1_500))),
    Part("live_clients", lambda given: given.of("live_clients")),
    Part("large_inputs", lambda given: given.of("large_inputs")),
    Part("full_drives", lambda given: given.of("driven", "2", given.many(4, 60), "--full", "--object", "memory")),
    Part("unnamed", lambda given: ["tests/process/unnamed.py"], is_long=True),
    Part("full_drives_of_all", lambda given: given.of("driven", "3", given.many(0, 40), "--full"), is_long=True),
    Part("explained", lambda given: given.of("explained", "1", given.many(200, 4_000))),
    Part("explained_long", lambda given: given.of("explained_long", "1", given.many(150, 3_000))),
    Part("drawn", lambda given: given.of("drawn", "1", given.many(130, 2_000))),
    Part("minimal_cores", lambda given: given.of("minimal_cores", "1", given.many(24, 600))),
    Part("listed_faults", lambda given: given.of("listed_faults", "1", given.many(400, 10_000))),
    Part("guarantees", lambda given: given.of("guarantees", "1", given.many(300, 6_000))),
    Part("pages", lambda given: given.of("pages", "1", given.many(30, 1_000), *given.longer())),
    Part("lines", lambda given: given.of("lines", "1", given.many(120, 1_000))),
    Part(
        "long_histories",
        lambda given: given.of("long_histories", "1", given.many(4_000, 20_000), given.many(400, 2_000), *given.longer()),
    ),
    Part("events", lambda given: given.of("events", "1", given.many(5_000, 50_000), *given.longer())),
    Part("choices", lambda given: given.of("choices", "1", given.many(2_000, 20_000), given.many(60, 1_000), *given.longer())),
    Part("explained_reads", lambda given: given.of("explained_reads", given.many(60, 1_000))),
    Part("summaries", lambda given: given.of("summaries", "1", given.many(500, 10_000))),
    Part("million_operations", lambda given: given.of("lines", "2", "1", "--operations", given.many(0, 1_000_000)), is_long=True),
    Part("streams", lambda given: given.of("streams", "--steps", given.many(20, 50))),
    Part("stream_calls", lambda given: given.of("stream_calls"), ("cc",)),
    Part("release", lambda given: given.of("release")),
    Part("node_package", lambda given: given.of("node_package")),
    Part("arm64_functions", lambda given: ["tests/process/arm64_functions.py"]),
    Part("refused_memory", lambda given: given.of("refused_memory"), ("cc",), is_long_unproved=True),
    Part(
        "library",
        lambda given: ["embed/run.py", "--compare", given.many(1_500, 30_000)],
        ("cc", "ar"),
        lambda given: ARCHIVE,
        "./check --library builds it",
    ),
    Part(
        "wasm_module",
        lambda given: given.of("wasm_module", "1", given.many(400, 5_000), *given.longer()),
        ("node", "wasm-opt", "cc", "ar"),
        lambda given: ROOT / "crates" / "app_pages" / "out" / "rlib" / "app_pages.rlib" / "format",
        "rt ci leaves it",
    ),
)


def lacks(part, given):
    """What a part needs and does not find, with the line that helps."""
    for tool in part.tools:
        if not shutil.which(tool):
            return f"{tool} is missing: {INSTALLS[tool]}"
    if part.is_long_unproved and not given.is_long and is_unproved([given.program]):
        return "it takes many minutes with a program that rt try built: --long runs it"
    return "" if part.file(given).is_file() else f"{part.file(given).name} is missing: {part.install}"


def end_group(process):
    """Ends a process and all that it started."""
    with contextlib.suppress(ProcessLookupError):
        os.killpg(process.pid, signal.SIGKILL)


def stop(number, frame):
    """Ends what runs when this process is to end."""
    for process in list(RUNNING):
        end_group(process)
    os._exit(128 + number)


def status_within(process, seconds):
    """The status of a process, or what it lacks. All that it started ends with it."""
    RUNNING.add(process)
    try:
        return process.wait(seconds)
    except subprocess.TimeoutExpired:
        return f"none within {seconds} seconds"
    finally:
        end_group(process)
        process.wait()
        RUNNING.discard(process)


def counts_of(text, status):
    """The counts of a part by its last line, and by its status: what ends badly has failed."""
    passed, failed, skipped = read_last_line(text) or (int(status == 0), 0, 0)
    return passed, failed or int(status != 0), skipped


def run_part(part, given):
    """Runs a part to its end."""
    missing = lacks(part, given)
    if missing:
        return Ended((0, 0, 1), skipped=missing)
    begun = time.monotonic()
    how = {"cwd": ROOT, "stdin": subprocess.DEVNULL, "stderr": subprocess.STDOUT, "start_new_session": True}
    how["env"] = {**os.environ, "CAUSAL_JUDGE": given.program, "PYTHONDONTWRITEBYTECODE": "1"}
    with tempfile.TemporaryFile("w+", errors="replace") as said:
        process = subprocess.Popen([sys.executable, *part.words(given)], stdout=said, **how)
        status = status_within(process, MOST_LONG_SECONDS if given.is_long else MOST_SECONDS)
        said.seek(0)
        text = said.read().rstrip()
    if status not in (0, 1):
        text += f"\nstatus {status}"
    return Ended(counts_of(text, status), time.monotonic() - begun, text)


def show(part, ended):
    """Prints how a part ended: what it said where something failed, and a line."""
    if ended.skipped:
        print(f"{part.name}: skipped: {ended.skipped}", flush=True)
        return
    lines = [line[:SHOWN_CHARACTERS] for line in ended.text.split("\n") if not read_last_line(line)]
    if not ended.counts[1]:
        lines = [f"{part.name}: {line}" for line in lines if "skipped" in line or "left out" in line]
    if lines:
        print(*lines[:SHOWN_LINES], *(["..", *lines[-3:]] if len(lines) > SHOWN_LINES else []), sep="\n")
    passed, failed, skipped = ended.counts
    more = f", {skipped} skipped" if skipped else ""
    print(f"{part.name}: {passed} passed, {failed} failed{more} ({ended.seconds:.0f} seconds)", flush=True)


def chosen(asked, is_built):
    """The parts that are named, or all that a run of this kind has."""
    unknown = set(asked.parts) - {part.name for part in PARTS}
    if unknown:
        sys.exit(f"no part {', '.join(sorted(unknown))}; the parts are {', '.join(part.name for part in PARTS)}")
    if asked.parts:
        return [part for part in PARTS if part.name in asked.parts]
    return [part for part in PARTS if (asked.long or not part.is_long) and (is_built or part.name != "tables_by_rattle")]


def main():
    parser = argparse.ArgumentParser(description=__doc__, formatter_class=argparse.RawDescriptionHelpFormatter)
    parser.add_argument("--long", action="store_true")
    parser.add_argument("--size", type=int, default=100)
    parser.add_argument("--jobs", type=int, default=min(os.cpu_count() or 2, 4))
    parser.add_argument("parts", nargs="*", metavar="PART")
    asked = parser.parse_args()
    program = pathlib.Path(os.environ.get("CAUSAL_JUDGE") or BUILT).resolve()
    parts, total = chosen(asked, program == BUILT), [0, 0, 0]
    if not program.is_file():
        print(f"no program {program}: rt ci builds it, or CAUSAL_JUDGE names one")
        end(0, 1)
    for number in (signal.SIGTERM, signal.SIGINT, signal.SIGHUP):
        signal.signal(number, stop)
    with tempfile.TemporaryDirectory(prefix="tests-") as room, ThreadPoolExecutor(asked.jobs) as pool:
        given = Given(str(program), asked.size, asked.long, room)
        running = {pool.submit(run_part, part, given): part for part in parts}
        for done in as_completed(running):
            show(running[done], done.result())
            total = [sum(pair) for pair in zip(total, done.result().counts)]
    end(*total)


if __name__ == "__main__":
    main()
