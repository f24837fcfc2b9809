// The file of a log: one recorder at a time, and writes that fail.

import assert from "node:assert/strict";
import { fork, spawnSync } from "node:child_process";
import fs from "node:fs";
import test from "node:test";

import { LogInUse, Recorder } from "causal-judge";
import { ORDER_LINE, linesOf, room } from "./support.mjs";

const HOLDS = `
import { Recorder } from "causal-judge";
new Recorder(process.argv[2]).client("alice").beginWrite("x", 1);
process.send("held");
setInterval(() => {}, 1000);
`;

const ENDS = `
import { Recorder } from "causal-judge";
new Recorder(process.argv[2]).client("a").write("x", 1, () => 1);
`;

test("one recorder writes a log at a time", (t) => {
    const file = room(t)();
    const recorder = new Recorder(file);
    assert.throws(() => new Recorder(file), LogInUse);
    recorder.close();
    new Recorder(file).close();
    assert.equal(fs.existsSync(`${file}.lock`), false);
});

test("a file system without second names", (t) => {
    const file = room(t)();
    const { linkSync } = fs;
    t.after(() => (fs.linkSync = linkSync));
    fs.linkSync = () => {
        throw Object.assign(new Error("no links"), { code: "EPERM" });
    };
    const recorder = new Recorder(file);
    assert.throws(() => new Recorder(file), LogInUse);
    recorder.close();
    new Recorder(file).close();
});

test("a process that was killed holds nothing", async (t) => {
    const place = room(t);
    const script = new URL("holds.mjs", import.meta.url);
    fs.writeFileSync(script, HOLDS);
    const child = fork(script, [place()]);
    await new Promise((resolve) => child.once("message", resolve));
    assert.throws(() => new Recorder(place()), (error) => error instanceof LogInUse && error.message.includes(String(child.pid)));
    child.kill("SIGKILL");
    await new Promise((resolve) => child.once("exit", resolve));
    new Recorder(place()).close();
    fs.rmSync(script);
    assert.deepEqual(linesOf(place()), [["begin", "alice", ["w", "x", 1]], ["lost", "alice"]]);
    assert.deepEqual(fs.readdirSync(place("")).sort(), ["run.jsonl"]);
});

test("a lock of a number that was given to another process holds nothing", { skip: process.platform !== "linux" }, (t) => {
    const file = room(t)();
    new Recorder(file).close();
    const recorder = new Recorder(file);
    const text = fs.readFileSync(`${file}.lock`, "utf8");
    recorder.close();
    fs.writeFileSync(`${file}.lock`, text.replace(/ \d+ /, " 1 "));
    new Recorder(file).close();
});

test("a log is an ordinary file", (t) => {
    const place = room(t);
    assert.throws(() => new Recorder("/dev/null"), TypeError);
    assert.throws(() => new Recorder(place("")), { code: "EISDIR" });
    assert.throws(() => new Recorder(place("none/run.jsonl")), { code: "ENOENT" });
    assert.deepEqual(fs.readdirSync(place("")), []);
});

test("a log whose first line can't be written stays empty", (t) => {
    const file = room(t)();
    const { writeSync } = fs;
    const fault = Object.assign(new Error("no room"), { code: "ENOSPC" });
    t.after(() => (fs.writeSync = writeSync));
    fs.writeSync = (fd, line, ...from) => {
        if (String(line) !== ORDER_LINE) return writeSync(fd, line, ...from);
        if (from[0]) throw fault;
        return writeSync(fd, line, 0, 5);
    };
    assert.throws(() => new Recorder(file), fault);
    fs.writeSync = writeSync;
    assert.equal(fs.readFileSync(file, "utf8"), "");
    assert.equal(fs.existsSync(`${file}.lock`), false);
    new Recorder(file).close();
    assert.equal(fs.readFileSync(file, "utf8"), ORDER_LINE);
});

test("a line that can't be written is cut, and its call is lost", (t) => {
    const file = room(t)();
    const recorder = new Recorder(file);
    const alice = recorder.client("alice");
    const { writeSync } = fs;
    const fault = Object.assign(new Error("no room"), { code: "ENOSPC" });
    fs.writeSync = (fd, line, from) => {
        if (from) throw fault;
        return writeSync(fd, line, 0, 5);
    };
    t.after(() => (fs.writeSync = writeSync));
    assert.throws(() => alice.beginWrite("x", 1), fault);
    fs.writeSync = writeSync;
    const call = alice.beginWrite("x", 2);
    fs.writeSync = (fd, line, from) => {
        if (from) throw fault;
        return writeSync(fd, line, 0, 5);
    };
    assert.throws(() => call.end(), fault);
    fs.writeSync = writeSync;
    alice.read("x", () => 2);
    recorder.close();
    assert.deepEqual(linesOf(file), [
        ["begin", "alice", ["w", "x", 2]],
        ["lost", "alice"],
        ["begin", "alice", ["r", "x"]],
        ["end", "alice", 2],
    ]);
});

test("a line that is written in parts is whole", (t) => {
    const file = room(t)();
    const recorder = new Recorder(file);
    const { writeSync } = fs;
    fs.writeSync = (fd, line, from = 0) => writeSync(fd, line, from, 1);
    recorder.client("grün").write("x", "v", () => 1);
    fs.writeSync = writeSync;
    recorder.close();
    assert.equal(linesOf(file)[0][1], "grün");
});

test("a process that ends leaves its log whole", (t) => {
    const place = room(t);
    const script = new URL("ends.mjs", import.meta.url);
    fs.writeFileSync(script, ENDS);
    assert.equal(spawnSync(process.execPath, [script.pathname, place()]).status, 0);
    fs.rmSync(script);
    assert.equal(linesOf(place()).length, 2);
    new Recorder(place()).close();
});
