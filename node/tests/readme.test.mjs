// The examples of README.md run as they stand.

import assert from "node:assert/strict";
import { spawnSync } from "node:child_process";
import fs from "node:fs";
import path from "node:path";
import test from "node:test";

import { BACKEND, HEALTHY, PACKAGE, room } from "./support.mjs";

/** The indented blocks of the page. */
const blocks = fs
    .readFileSync(path.join(PACKAGE, "README.md"), "utf8")
    .split(/\n(?! {4}|\n)/)
    .map((part) => part.split("\n").filter((line) => line.startsWith("    ")))
    .filter((lines) => lines.length)
    .map((lines) => lines.map((line) => line.slice(4)).join("\n"));
const block = (word) => blocks.find((text) => text.includes(word));

/** Runs a text as a module, after some lines of its own, in a folder with a log. */
function ranAs(t, before, text) {
    const place = room(t);
    const script = new URL(`tried.${process.pid}.mjs`, import.meta.url).pathname;
    fs.writeFileSync(place("run.jsonl"), HEALTHY);
    fs.writeFileSync(script, `${before}\n${text}\n`);
    t.after(() => fs.rmSync(script));
    const environment = { ...process.env };
    delete environment.NODE_TEST_CONTEXT;
    return spawnSync(process.execPath, ["--import", BACKEND, script], { cwd: place(""), env: environment, encoding: "utf8" });
}

test("the test of README.md passes", (t) => {
    const done = ranAs(t, 'import fs from "node:fs"; fs.rmSync("run.jsonl"); const store = new Map();', block("assertMet("));
    assert.equal(done.status, 0, done.stdout + done.stderr);
});

test("it fails with the explanation where the store forgets", (t) => {
    const before = 'import fs from "node:fs"; fs.rmSync("run.jsonl"); const store = { set() {}, get: () => "alice.0" };';
    const done = ranAs(t, before, block("assertMet("));
    assert.equal(done.status, 1);
    assert.match(done.stdout, /cc no ThinAirRead[^]*The page run\.html shows it\./);
});

test("the judge's lines of README.md run", (t) => {
    const done = ranAs(t, 'import fs from "node:fs"; const log = fs.readFileSync("run.jsonl");', block("explain(log)"));
    assert.equal(done.status, 0, done.stderr);
});

test("README.md has at most 600 words", () => {
    assert.ok(fs.readFileSync(path.join(PACKAGE, "README.md"), "utf8").split(/\s+/).filter(Boolean).length <= 600);
});
