// The command: words, files, standard input and statuses, beside those of the program where it is there.

import assert from "node:assert/strict";
import { spawn, spawnSync } from "node:child_process";
import fs from "node:fs";
import path from "node:path";
import test from "node:test";

import { BACKEND, COMMAND, EXAMPLES, HEALTHY, LOST_WRITE, PACKAGE, PROGRAM, first, ran, ranNatively, room } from "./support.mjs";

const NO = "cc no WriteCOInitRead\ncm no WriteCOInitRead\nccv no WriteCOInitRead\n";
const YES = "cc yes\ncm yes\nccv yes\n";
const UNKNOWN = '["memory",[[["w",0,1],["w",0,1],["r",0,0]]]]';
const CHECKED = '[["memory",[[["w",0,1]],[["r",0,1]]]],["cc",[[[1,0]],[[1,1]]],[[[0]],[[0,1]]]]]';
const REFUTED = '[["memory",[[["w",0,1],["r",0,0]]]],"cc",["WriteCOInitRead",[[0,0],[0,1]]]]';
const MANY = JSON.stringify(["memory", [...Array(20)].map((_, s) => [["w", s, s + 1]])]);

// The words, the standard input, the status, what is written to standard output, and how standard error begins.
const CASES = [
    [["judge", "-"], LOST_WRITE, 0, NO, ""],
    [["judge", "--events"], LOST_WRITE, 0, NO, ""],
    [["judge"], LOST_WRITE, 1, "", "refused 1"],
    [["judge", "-"], HEALTHY, 0, YES, ""],
    [["judge"], '["memory",[]]', 0, YES, ""],
    [["judge"], MANY, 1, "", "refused 6"],
    [["judge", "--long"], MANY, 0, YES, ""],
    [["judge", "-"], MANY, 0, YES, ""],
    [["judge", "--expect", "cc", "-"], LOST_WRITE, 5, NO, ""],
    [["judge", "--expect=cc,ccv", "-"], HEALTHY, 0, YES, ""],
    [["judge", "--expect", "cc"], UNKNOWN, 6, undefined, ""],
    [["judge", "--expect", "cc"], "x", 1, "", "refused 1"],
    [["explain", "--json"], '["memory",[[["r",0,1]]]]', 0, undefined, ""],
    [["explain", "--svg", "-"], LOST_WRITE, 0, undefined, ""],
    [["explain", "-"], LOST_WRITE, 0, undefined, ""],
    [["explain", "--events"], "[]", 1, "", "refused 30 1"],
    [["check"], CHECKED, 0, "cc yes\n", ""],
    [["check", "-"], "[]", 1, "", "refused 2"],
    [["refute", "-"], REFUTED, 0, "cc no WriteCOInitRead\n", ""],
    [["refute", "--long"], REFUTED, 0, "cc no WriteCOInitRead\n", ""],
    [["refute"], REFUTED.replace("[0,1]", "[0,0]"), 1, "", "refused 23"],
    [["events"], LOST_WRITE, 0, '["memory",[[["w",0,1],["r",0,0]]]]\n', ""],
    [["judge", "-"], `${HEALTHY}["beg`, 0, YES, "last line is not whole: passed over"],
    [["judge", "none.json"], "", 3, "", "none.json: there is no such file"],
    [["judge", "."], "", 3, "", ".: it is a folder"],
    [["judge", "--expect", "cc,cc"], "", 2, "", "error: '--expect' takes one or more of cc, cm and ccv, each once"],
    [["judge", "--expect"], "", 2, "", "error: a value is required for '--expect"],
    [["judge", "--json"], "", 2, "", "error: "],
    [["explain", "--json", "--html"], "", 2, "", "error: '--html' and '--json' exclude one another"],
    [["explain", "-o", "x", "a", "b"], "", 2, "", "error: '-o' and '--html' take one FILE"],
    [["nonsense"], "", 2, "", "error: "],
    [[], "", 2, "", "error: "],
    [["judge", "--long", "--long"], "", 2, "", "error: "],
    [["judge", "--long=1"], "", 2, "", "error: "],
];

// What the program says in other words.
const OTHER_WORDS = ["judge,--json", "nonsense", "", "judge,--long,--long", "judge,--long=1", "judge,--expect"];

for (const [words, input, status, out, said] of CASES)
    test(`causal_judge ${words.join(" ")}, of ${input.length} bytes`, () => {
        const found = ran(words, { input });
        assert.equal(found.status, status, found.said);
        if (out !== undefined) assert.equal(found.out, out);
        assert.ok(found.said.startsWith(said), found.said);
        if (!PROGRAM) return;
        const due = ranNatively(words, { input });
        assert.equal(due.status, status);
        assert.equal(found.out, due.out);
        if (!OTHER_WORDS.includes(String(words))) assert.equal(first(found.said), first(due.said));
    });

test("several files", { skip: !PROGRAM && "CAUSAL_JUDGE names no program" }, (t) => {
    const place = room(t);
    fs.writeFileSync(place("a.jsonl"), LOST_WRITE);
    fs.writeFileSync(place("b.json"), MANY);
    fs.writeFileSync(place("c.jsonl"), `${HEALTHY}["beg`);
    fs.writeFileSync(place("d.jsonl"), '["begin","a"]\n');
    for (const words of [
        ["judge", "a.jsonl", "b.json"],
        ["judge", "c.jsonl", "d.jsonl", "a.jsonl"],
        ["judge", "--expect", "cc", "b.json", "a.jsonl"],
        ["judge", "--expect", "cc", "a.jsonl", "e"],
        ["explain", "--json", "a.jsonl", "b.json"],
        ["explain", "a.jsonl", "c.jsonl"],
        ["events", "a.jsonl", "c.jsonl"],
    ])
        assert.deepEqual(ran(words, { cwd: place("") }), ranNatively(words, { cwd: place("") }), words.join(" "));
});

test("an answer goes to a file", (t) => {
    const place = room(t);
    assert.deepEqual(ran(["explain", "--html", "-o", place("run.html"), "-"], { input: LOST_WRITE }), { status: 0, out: "", said: "" });
    assert.match(fs.readFileSync(place("run.html"), "utf8"), /<\/html>\n$/);
    assert.equal(ran(["explain", "-o", place("none/run.html"), "-"], { input: LOST_WRITE }).status, 3);
    assert.equal(ran(["explain", "-o", place("run.html"), "-"], { input: "x" }).status, 1);
    assert.deepEqual(fs.readdirSync(place("")), ["run.html"]);
});

test("each example, as the program answers it", { skip: !(EXAMPLES && PROGRAM) && "CAUSAL_JUDGE names no program" }, () => {
    const wrong = [];
    for (const name of fs.readdirSync(EXAMPLES).filter((it) => /\.jsonl?$/.test(it)))
        for (const command of ["judge", "explain", "check", "refute", "events"]) {
            const [found, due] = [ran, ranNatively].map((run) => run([command, path.join(EXAMPLES, name)]));
            const isRight = found.status === due.status && found.out === due.out && first(found.said) === first(due.said);
            if (!isRight) wrong.push(`${command} ${name}`);
        }
    assert.deepEqual(wrong, []);
});

test("a writer that takes its time, by a pipe that doesn't wait", async () => {
    const before = process.env.CAUSAL_JUDGE_BACKEND === "native" ? ["--import", BACKEND] : [];
    const child = spawn(process.execPath, [...before, COMMAND, "judge", "-"], { stdio: ["pipe", "pipe", "inherit"] });
    let out = "";
    child.stdout.on("data", (data) => (out += data));
    for (const part of [LOST_WRITE.slice(0, 20), LOST_WRITE.slice(20)]) {
        await new Promise((resolve) => setTimeout(resolve, 300));
        child.stdin.write(part);
    }
    child.stdin.end();
    assert.equal(await new Promise((resolve) => child.once("close", resolve)), 0);
    assert.equal(out, NO);
});

test("a long answer to a slow reader", () => {
    const log = [...Array(20000)].map((_, n) => `["begin","a",["w","k${n}",${n}]]\n["end","a","ok"]\n`).join("");
    const before = process.env.CAUSAL_JUDGE_BACKEND === "native" ? ["--import", BACKEND] : [];
    const words = [process.execPath, ...before, COMMAND, "events"];
    const done = spawnSync("bash", ["-c", '"$@" | (sleep 1; cat)', "bash", ...words], { input: log, maxBuffer: 1 << 28 });
    assert.equal(JSON.parse(done.stdout)[1][0].length, 20000);
});

test("a reader that is gone", () => {
    const words = [process.execPath, COMMAND, "--help"];
    const { status } = spawnSync("bash", ["-c", `"$@" | true; exit \${PIPESTATUS[0]}`, "bash", ...words]);
    assert.ok([0, 3].includes(status), String(status));
});

test("help and version", () => {
    const { version } = JSON.parse(fs.readFileSync(path.join(PACKAGE, "package.json"), "utf8"));
    assert.ok(ran(["--version"]).out.startsWith(`causal_judge ${version} `));
    for (const words of [["help"], ["--help"], ["judge", "--help"]]) assert.match(ran(words).out, /^Judges a recorded run/);
});

test("npx runs it", () => {
    const cwd = path.resolve(PACKAGE, "..", "..");
    const done = spawnSync("npx", ["--offline", "--no-install", "causal_judge", "--version"], { cwd, encoding: "utf8" });
    assert.match(done.stdout, /^causal_judge /, done.stderr);
});
