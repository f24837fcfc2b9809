#!/usr/bin/env python3
"""Has examples/java/Recorder.java record calls, and compares the lines of each log with what is due.

    python3 tests/process/java_recorder.py -- PROGRAM

A case is a few statements of Java, which have a recorder and the clients `alice` and `bob`, and the lines that they have to append to the
first one, which says the order of time. What they throw comes after these lines. Threads share a recorder with a map that is linearizable,
and another one with a map that forgets: PROGRAM says three `yes` of the first log, and three `no` of the second one.
"""

import argparse
import json
import pathlib
import subprocess
import tempfile

import folders  # noqa: F401
from command_words import with_program
from counting import end_after

RECORDER = pathlib.Path(__file__).resolve().parents[2] / "examples" / "java" / "Recorder.java"
THREADS, CALLS, SECONDS = 8, 200, 300
ORDER = ["order", "time"]
BEGUN_WRITE = ["begin", "alice", ["w", "x", "v"]]
BEGUN_READ = ["begin", "alice", ["r", "x"]]
BEGUN_DELETE = ["begin", "alice", ["d", "x"]]
OK, FAIL, LOST = ["end", "alice", "ok"], ["fail", "alice"], ["lost", "alice"]
READ = ["end", "alice", "v"]

# The exceptions of the calls: `Refused` is certain by the recorder's rule, and of `Odd` the rule itself fails.
HEAD = """
import java.math.*;
import java.nio.file.*;
import java.util.*;
import java.util.concurrent.*;
class Refused extends Exception { }
class Odd extends Exception { }
class Tried {
    static boolean isCertain(Throwable error) {
        if (error instanceof Odd)
            throw new IllegalStateException();
        return error instanceof Refused;
    }
    static <T> T refused() throws Exception { throw new Refused(); }
    static <T> T broken() throws Exception { throw new java.net.SocketTimeoutException(); }
    static <T> T noNote() { throw new NoSuchElementException(); }
    static Object nested(int depth) { return depth == 1 ? List.of() : List.of(nested(depth - 1)); }
    static Map<String, Object> mapped(String name, Object value) { return Collections.singletonMap(name, value); }
    interface Body { void run(Recorder recorder, Recorder.Client alice, Recorder.Client bob) throws Exception; }
    static void tried(String log, Body body) throws Exception {
        try (var recorder = new Recorder(Path.of(log), Tried::isCertain)) {
            body.run(recorder, recorder.client("alice"), recorder.client("bob"));
        } catch (Exception error) {
            Files.writeString(Path.of(log), "\\"" + error.getClass().getSimpleName() + "\\"\\n", StandardOpenOption.APPEND);
        }
    }
"""

# The statements, and the lines. A text is the exception that they throw.
CASES = {
    "nothing": ("", []),
    "a write": ('alice.write("x", "v", () -> {});', [BEGUN_WRITE, OK]),
    "a write that is refused": ('alice.write("x", "v", () -> refused());', [BEGUN_WRITE, FAIL, "Refused"]),
    "a write without an answer": ('alice.write("x", "v", () -> broken());', [BEGUN_WRITE, LOST, "SocketTimeoutException"]),
    "a write that ends by an error": ('alice.write("x", "v", () -> { throw new Odd(); });', [BEGUN_WRITE, LOST, "IllegalStateException"]),
    "a read": ('alice.read("x", () -> "v");', [BEGUN_READ, ["end", "alice", "v"]]),
    "a read of nothing": ('alice.read("x", () -> null);', [BEGUN_READ, ["end", "alice", None]]),
    "a read of a number": ('alice.read("x", () -> Long.MIN_VALUE);', [BEGUN_READ, ["end", "alice", -(2**63)]]),
    "a read of a truth": ('alice.read("x", () -> true);', [BEGUN_READ, ["end", "alice", True]]),
    "a read of a fraction": ('alice.read("x", () -> 1.0);', [BEGUN_READ, LOST, "IllegalArgumentException"]),
    "a read of bytes": ('alice.read("x", () -> new byte[1]);', [BEGUN_READ, LOST, "IllegalArgumentException"]),
    "a delete": ('alice.delete("x", () -> true);', [BEGUN_DELETE, OK]),
    "a delete that finds nothing": ('alice.delete("x", () -> false);', [BEGUN_DELETE, FAIL]),
    "a delete that says nothing": ('alice.delete("x", () -> null);', [BEGUN_DELETE, LOST, "NullPointerException"]),
    "a compare-and-set": ('alice.cas("x", "v", () -> true);', [BEGUN_WRITE, OK]),
    "one that is refused": ('alice.cas("x", "v", () -> false);', [BEGUN_WRITE, FAIL]),
    "one that is refused by an exception": ('alice.cas("x", "v", () -> refused());', [BEGUN_WRITE, FAIL, "Refused"]),
    "one without an answer": ('alice.cas("x", "v", () -> broken());', [BEGUN_WRITE, LOST, "SocketTimeoutException"]),
    "a callback": ('var call = alice.beginWrite("x", "v"); call.end();', [BEGUN_WRITE, OK]),
    "a callback that is lost": ('alice.beginDelete("x").lost();', [BEGUN_DELETE, LOST]),
    "a callback with a fault": ('alice.beginRead("x").endBy(new Refused());', [BEGUN_READ, FAIL]),
    "a call that stays pending": ('alice.beginRead("x");', [BEGUN_READ]),
    "two calls at once": ('alice.beginRead("x"); alice.beginWrite("x", "v");', [BEGUN_READ, "IllegalStateException"]),
    "a call that ends twice": ('var call = alice.beginWrite("x", "v"); call.end(); call.lost();', [BEGUN_WRITE, OK, "IllegalStateException"]),
    "an old call that ends again": (
        'var call = alice.beginWrite("x", "v"); call.end(); alice.beginRead("x"); call.fail();',
        [BEGUN_WRITE, OK, BEGUN_READ, "IllegalStateException"],
    ),
    "a read that ends without a value": ('alice.beginRead("x").end();', [BEGUN_READ, "IllegalStateException"]),
    "a write that ends with one": ('alice.beginWrite("x", "v").end("v");', [BEGUN_WRITE, "IllegalStateException"]),
    "a new session": (
        'alice.write("x", "v", () -> {}); alice.reconnected(); alice.read("x", () -> "v"); alice.reconnected(); alice.delete("x", () -> true);',
        [BEGUN_WRITE, OK, ["begin", "alice#2", ["r", "x"]], ["end", "alice#2", "v"], ["begin", "alice#3", ["d", "x"]], ["end", "alice#3", "ok"]],
    ),
    "a new session while a call is pending": (
        'var call = alice.beginWrite("x", "v"); alice.reconnected(); alice.beginRead("x").end("v"); call.lost();',
        [BEGUN_WRITE, ["begin", "alice#2", ["r", "x"]], ["end", "alice#2", "v"], LOST],
    ),
    "a new session whose name is taken": (
        'recorder.client("alice#2"); alice.reconnected(); alice.beginRead("x");',
        [["begin", "alice#3", ["r", "x"]]],
    ),
    "a name that is taken": ('recorder.client("bob");', ["IllegalArgumentException"]),
    "new values": (
        'alice.beginWrite("x", alice.newValue()).end(); alice.reconnected(); alice.beginWrite("x", alice.newValue()); '
        'bob.beginWrite("x", bob.newValue());',
        [["begin", "alice", ["w", "x", "alice.1"]], OK, ["begin", "alice#2", ["w", "x", "alice.2"]], ["begin", "bob", ["w", "x", "bob.3"]]],
    ),
    "what keys hold": ('recorder.start("x", 7); recorder.start("y", "v");', [["start", "x", 7], ["start", "y", "v"]]),
    "what keys hold, too late": ('alice.beginRead("x"); recorder.start("x", 7);', [BEGUN_READ, "IllegalStateException"]),
    "a text of all kinds": (
        'alice.beginWrite("\\"\\\\\\n\\t\\u00e9\\u2028\\0", "\\uD83D\\uDE00");',
        [["begin", "alice", ["w", '"\\\n\t\u00e9\u2028\0', "\U0001f600"]]],
    ),
    "half a character": ('alice.beginWrite("x", "\\uD83D");', ["IllegalArgumentException"]),
    "a value that is none": ('alice.beginWrite("x", null);', ["IllegalArgumentException"]),
    "a line that is too long": ('alice.beginWrite("x", "v".repeat(1_000_000));', ["IllegalArgumentException"]),
    "a read of what is too long": ('alice.read("x", () -> "v".repeat(1_000_000));', [BEGUN_READ, LOST, "IllegalArgumentException"]),
    "a closed recorder": ('alice.beginRead("x"); recorder.close(); bob.beginRead("x");', [BEGUN_READ, "UncheckedIOException"]),
}

# Those of notes, which stand last in their lines.
CASES |= {
    "a write with a note": ('alice.withNote("n1").write("x", "v", () -> {});', [[*BEGUN_WRITE, "n1"], OK]),
    "a read with a note": ('alice.withNote(7).read("x", () -> null);', [[*BEGUN_READ, 7], ["end", "alice", None]]),
    "a delete with a note": ('alice.withNote(true).delete("x", () -> false);', [[*BEGUN_DELETE, True], FAIL]),
    "a compare-and-set with one": (
        'alice.withNote(Map.of("server", "n1")).cas("x", "v", () -> true);',
        [[*BEGUN_WRITE, {"server": "n1"}], OK],
    ),
    "a write whose end has one": ('alice.withEndNote(() -> "n1").write("x", "v", () -> {});', [BEGUN_WRITE, [*OK, "n1"]]),
    "a read whose end has one": ('alice.withEndNote(() -> List.of("n1")).read("x", () -> "v");', [BEGUN_READ, [*READ, ["n1"]]]),
    "a call that failed with one": ('alice.withEndNote(() -> 1).delete("x", () -> false);', [BEGUN_DELETE, [*FAIL, 1]]),
    "a call that was lost with one": (
        'alice.withEndNote(() -> 1).cas("x", "v", () -> broken());',
        [BEGUN_WRITE, [*LOST, 1], "SocketTimeoutException"],
    ),
    "a read of a fraction with one": (
        'alice.withEndNote(() -> 1).read("x", () -> 1.0);',
        [BEGUN_READ, [*LOST, 1], "IllegalArgumentException"],
    ),
    "notes of both lines": (
        'alice.withNote("n1").withEndNote(() -> "n2").write("x", "v", () -> {}); alice.delete("x", () -> true);',
        [[*BEGUN_WRITE, "n1"], [*OK, "n2"], BEGUN_DELETE, OK],
    ),
    "a function that is asked late": (
        'var found = new ArrayList<Integer>(); alice.withEndNote(() -> found).write("x", "v", () -> found.add(7));',
        [BEGUN_WRITE, [*OK, [7]]],
    ),
    "a list that grows later": (
        'var many = new ArrayList<>(List.of(1)); var noted = alice.withNote(many); many.add(2); noted.beginRead("x");',
        [[*BEGUN_READ, [1]]],
    ),
    "a callback with a note": ('alice.beginWrite("x", "v").withNote(5).end();', [BEGUN_WRITE, [*OK, 5]]),
    "a callback of a read with one": ('alice.beginRead("x").withNote(5).end("v");', [BEGUN_READ, [*READ, 5]]),
    "a callback that failed with one": ('alice.beginWrite("x", "v").withNote(5).fail();', [BEGUN_WRITE, [*FAIL, 5]]),
    "a callback that was lost with one": ('alice.beginWrite("x", "v").withNote(5).lost();', [BEGUN_WRITE, [*LOST, 5]]),
    "a note in the place of another": ('alice.withEndNote(() -> 1).beginRead("x").withNote(2).lost();', [BEGUN_READ, [*LOST, 2]]),
    "no note": ('alice.withNote(null).withEndNote(() -> null).beginRead("x").withNote(null).lost();', [BEGUN_READ, LOST]),
    "a note of all kinds": (
        'var map = new TreeMap<String, Object>(); map.put("", null); map.put("\\u00e9\\"", List.of()); map.put("z", Map.of()); '
        "alice.withNote(Arrays.asList(null, true, -1, 2L, (byte) 3, (short) 4, 1.5, 2.5f, map)).beginRead(\"x\");",
        [[*BEGUN_READ, [None, True, -1, 2, 3, 4, 1.5, 2.5, {"": None, 'é"': [], "z": {}}]]],
    ),
    "numbers of all sizes": (
        'alice.withNote(List.of(1e300, -1e300, 4.9e-324, new BigInteger("9".repeat(300)), new BigDecimal("-0.10"))).beginRead("x");',
        [[*BEGUN_READ, [1e300, -1e300, 5e-324, int("9" * 300), -0.1]]],
    ),
    "a deep note": ('alice.withNote(nested(50)).beginRead("x");', [[*BEGUN_READ, json.loads("[" * 50 + "]" * 50)]]),
    "a note in a new session": (
        'var noted = alice.withNote(1); noted.reconnected(); alice.beginRead("x").end("v"); noted.beginDelete("x");',
        [["begin", "alice#2", ["r", "x"]], ["end", "alice#2", "v"], ["begin", "alice#2", ["d", "x"], 1]],
    ),
    "two calls at once with a note": ('alice.beginRead("x"); alice.withNote(1).beginRead("y");', [BEGUN_READ, "IllegalStateException"]),
    "a note that comes too late": (
        'var call = alice.beginRead("x"); call.lost(); call.withNote(1).lost();',
        [BEGUN_READ, LOST, "IllegalStateException"],
    ),
    "a function that throws": ('alice.withEndNote(() -> noNote()).write("x", "v", () -> {});', [BEGUN_WRITE, OK, "NoSuchElementException"]),
    "a function that gives no note": (
        'alice.withEndNote(() -> 0.0 / 0).read("x", () -> "v");',
        [BEGUN_READ, READ, "IllegalArgumentException"],
    ),
    "a function that gives too much": (
        'alice.withEndNote(() -> "n".repeat(1_000_000)).delete("x", () -> true);',
        [BEGUN_DELETE, OK, "IllegalArgumentException"],
    ),
    "a function that throws after the call": (
        'try { alice.withEndNote(() -> noNote()).write("x", "v", () -> broken()); } '
        "catch (java.net.SocketTimeoutException error) { throw (Exception) error.getSuppressed()[0]; }",
        [BEGUN_WRITE, LOST, "NoSuchElementException"],
    ),
    "what is no note, in a call that goes on": (
        'var call = alice.beginRead("x"); try { call.withNote(new byte[1]); } finally { call.end("v"); }',
        [BEGUN_READ, READ, "IllegalArgumentException"],
    ),
}

# What is no note, alone and in others: nothing is recorded, and the store is not called.
NO_NOTES = (
    *("new byte[1]", "new Object()", "'c'", "Set.of(1)", "Optional.empty()", "(Object) new String[0]", "Map.of(1, 2)", "mapped(null, 1)"),
    *("0.0 / 0", "1f / 0", "1e301", "BigInteger.TEN.pow(301)", 'new BigDecimal("-1e301")', "nested(51)"),
    *('"\\uD83D"', '"n".repeat(1_000_000)'),
)
HOLDERS = ("%s", "List.of(%s)", 'Map.of("at", %s)')
CASES |= {
    f"no note {number}, {holder}": (
        f'alice.withNote({HOLDERS[holder] % note}).write("x", "v", () -> {{ throw new Odd(); }});',
        ["IllegalArgumentException"],
    )
    for number, note in enumerate(NO_NOTES)
    for holder in range(len(HOLDERS))
}

# Threads that read and write a map; where it forgets, each reads what it has written, and finds nothing.
SHARED = f"""
    static void shared(String log, boolean forgets) throws Exception {{
        var map = new ConcurrentHashMap<String, String>();
        var threads = Executors.newFixedThreadPool({THREADS});
        var ends = new ArrayList<Future<?>>();
        try (var recorder = new Recorder(Path.of(log))) {{
            for (int number = 0; number < {THREADS}; number++) {{
                var client = recorder.client("client " + number);
                var random = new Random(number);
                ends.add(threads.submit(() -> {{
                    for (int call = 0; call < {CALLS}; call++) {{
                        String key = "key " + random.nextInt(4), value = client.newValue();
                        String old = client.read(key, () -> forgets ? null : map.get(key));
                        if (old == null || random.nextBoolean())
                            client.write(key, value, () -> map.put(key, value));
                        else
                            client.cas(key, value, () -> map.replace(key, old, value));
                    }}
                    return null;
                }}));
            }}
            for (var end : ends)
                end.get();
        }} finally {{
            threads.shutdown();
        }}
    }}
"""


def source(room):
    """The Java that runs all cases, each with a log of its own."""
    bodies = [f"tried({json.dumps(log_of(room, name))}, (recorder, alice, bob) -> {{ {body} }});" for name, (body, _) in CASES.items()]
    shared = [f"shared({json.dumps(log_of(room, name))}, {name});" for name in ("false", "true")]
    main = "\n        ".join([*bodies, *shared, again(room)])
    return f"{HEAD}{SHARED}    public static void main(String[] words) throws Exception {{\n        {main}\n    }}\n}}\n"


def again(room):
    """Java that opens the log of the first case again."""
    return f"""try {{ new Recorder(Path.of({json.dumps(log_of(room, "a write"))})); System.out.println("opened"); }}
        catch (FileAlreadyExistsException error) {{ System.out.println("refused"); }}"""


def log_of(room, name):
    """The path of the log of a case."""
    return f"{room}/{name}.jsonl"


def judged(program, log):
    """What the program says of a log."""
    done = subprocess.run([program, "judge", "--long", "--events"], input=log, capture_output=True, check=False, timeout=SECONDS)
    return done.stdout.decode() + done.stderr.decode()


def cases(program, room):
    """Compiles and runs the Java, and gives the cases."""
    tried = pathlib.Path(room, "Tried.java")
    tried.write_text(source(room), encoding="ascii")
    built = subprocess.run(["javac", "-Xlint:all", "-Werror", "-d", room, RECORDER], capture_output=True, text=True, check=False)
    yield f"the recorder: {built.stderr}", built.returncode == 0
    subprocess.run(["javac", "-cp", room, "-d", room, tried], check=True)
    run = subprocess.run(["java", "-cp", room, "Tried"], capture_output=True, text=True, check=False, timeout=SECONDS)
    yield f"the run: {run.stdout}{run.stderr}", (run.returncode, run.stdout, run.stderr) == (0, "refused\n", "")
    for name, (_, due) in CASES.items():
        found = [json.loads(line) for line in pathlib.Path(log_of(room, name)).read_text(encoding="ascii").splitlines()]
        yield f"{name}: {found}, and not {ORDER} and {due}", found == [ORDER, *due]
    for name, answer in (("false", "yes"), ("true", "no")):
        log = pathlib.Path(log_of(room, name)).read_bytes()
        said = judged(program, log)
        yield f"a map that forgets, {name}: {said}", [line.split()[1] for line in said.splitlines()] == [answer] * 3
        yield f"a map that forgets, {name}: {log.count(10)} lines", log.count(10) == 1 + 4 * THREADS * CALLS


def main():
    program = with_program(argparse.ArgumentParser(description=__doc__, formatter_class=argparse.RawDescriptionHelpFormatter)).program[0]
    with tempfile.TemporaryDirectory() as room:
        end_after(cases(program, room))


if __name__ == "__main__":
    main()
