// The recorder: which lines the calls of clients leave in a log.

import assert from "node:assert/strict";
import fs from "node:fs";
import test from "node:test";

import { LogError, Recorder } from "causal-judge";
import { ORDER_LINE, linesOf, room } from "./support.mjs";

class Refusal extends Error {}
const W = ["begin", "alice", ["w", "x", "v"]];
const R = ["begin", "alice", ["r", "x"]];
const D = ["begin", "alice", ["d", "x"]];
const OK = ["end", "alice", "ok"];
const FAIL = ["fail", "alice"];
const LOST = ["lost", "alice"];
const thrower = (error) => () => {
    throw error;
};

// A name, what is done with a client, the lines, and the error that is thrown, where there is one.
const CASES = [
    ["a write", (a) => a.write("x", "v", () => 5), [W, OK]],
    ["a write that waits", (a) => a.write("x", "v", async () => 5), [W, OK]],
    ["a write that is refused", (a) => a.write("x", "v", thrower(new Refusal())), [W, FAIL], Refusal],
    ["a write that is refused later", (a) => a.write("x", "v", async () => thrower(new Refusal())()), [W, FAIL], Refusal],
    ["a write without an answer", (a) => a.write("x", "v", thrower(new RangeError())), [W, LOST], RangeError],
    ["a write without an answer later", (a) => a.write("x", "v", () => Promise.reject(new RangeError())), [W, LOST], RangeError],
    ["a read", (a) => a.read("x", () => "v"), [R, ["end", "alice", "v"]]],
    ["a read that waits", (a) => a.read("x", async () => 7), [R, ["end", "alice", 7]]],
    ["a read of nothing", (a) => a.read("x", () => null), [R, ["end", "alice", null]]],
    ["a read of what is not there", (a) => a.read("x", () => undefined), [R, ["end", "alice", null]]],
    ["a read of false", (a) => a.read("x", () => false), [R, ["end", "alice", false]]],
    ["a read of an empty text", (a) => a.read("x", () => ""), [R, ["end", "alice", ""]]],
    ["a read of a fraction", (a) => a.read("x", () => 0.5), [R, LOST], TypeError],
    ["a read of bytes", (a) => a.read("x", () => Buffer.from("v")), [R, LOST], TypeError],
    ["a read of a list", (a) => a.read("x", () => ["v"]), [R, LOST], TypeError],
    ["a read of a number with lost digits", (a) => a.read("x", () => 2 ** 60), [R, LOST], RangeError],
    ["a read of half a pair", (a) => a.read("x", () => "\ud800"), [R, LOST], RangeError],
    ["a read that throws", (a) => a.read("x", thrower(new RangeError())), [R, LOST], RangeError],
    ["a read that is refused", (a) => a.read("x", thrower(new Refusal())), [R, FAIL], Refusal],
    ["a delete", (a) => a.delete("x", () => 1), [D, OK]],
    ["a delete that found nothing", (a) => a.delete("x", () => 0, { found: (count) => count > 0 }), [D, FAIL]],
    ["a delete that waits and found nothing", (a) => a.delete("x", async () => 0, { found: (count) => count > 0 }), [D, FAIL]],
    ["a delete that doesn't know", (a) => a.delete("x", () => 0, { found: () => null }), [D, LOST]],
    ["a delete whose rule waits", (a) => a.delete("x", () => 0, { found: async () => false }), [D, LOST], TypeError],
    ["a compare-and-set", (a) => a.compareAndSet("x", "v", () => true), [W, OK]],
    ["one that wrote nothing", (a) => a.compareAndSet("x", "v", async () => false), [W, FAIL]],
    ["one that says nothing", (a) => a.compareAndSet("x", "v", () => {}), [W, LOST], TypeError],
    ["one with a rule", (a) => a.compareAndSet("x", "v", () => "stale", { done: (said) => said === "set" }), [W, FAIL]],
    ["one whose rule fails", (a) => a.compareAndSet("x", "v", () => 1, { done: thrower(new RangeError()) }), [W, LOST], RangeError],
    ["a callback", (a) => a.beginWrite("x", "v").end(), [W, OK]],
    ["a callback of a read", (a) => a.beginRead("x").end("v"), [R, ["end", "alice", "v"]]],
    ["a read that ends with too little", (a) => a.beginRead("x").end(), [R], TypeError],
    ["a write that ends with a value", (a) => a.beginWrite("x", "v").end("v"), [W], TypeError],
    ["a callback that is lost", (a) => a.beginDelete("x").lost(), [D, LOST]],
    ["a callback that failed", (a) => a.beginDelete("x").fail(), [D, FAIL]],
    ["a callback with an error", (a) => a.beginRead("x").endBy(new Refusal()), [R, FAIL]],
    ["a callback with a promise", (a) => a.beginWrite("x", "v").settle(Promise.resolve(1)), [W, LOST], TypeError],
    ["a call that stays pending", (a) => a.beginRead("x"), [R]],
    ["a second call at once", (a) => (a.beginRead("x"), a.beginRead("x")), [R], Error],
    ["a call that ends twice", (a) => ((call) => (call.end("v"), call.lost()))(a.beginRead("x")), [R, ["end", "alice", "v"]], Error],
    ["no key", (a) => a.write(null, "v", thrower(new Refusal())), [], TypeError],
    ["no value", (a) => a.write("x", undefined, thrower(new Refusal())), [], TypeError],
    ["a value that is a fraction", (a) => a.write("x", 1.5, thrower(new Refusal())), [], TypeError],
    ["a note", (a) => a.write("x", "v", () => 1, { note: { server: "n1" } }), [[...W, { server: "n1" }], OK]],
    ["a note of the end", (a) => a.write("x", "v", () => 1, { note: () => [2n ** 60n] }), [W, [...OK, [2 ** 60]]]],
    ["a note that is none", (a) => a.write("x", "v", () => 1, { note: new Date() }), [], TypeError],
    ["a note of the end that is none", (a) => a.write("x", "v", () => 1, { note: () => () => 1 }), [W, OK], TypeError],
    ["a note that fails beside an error", (a) => a.write("x", "v", thrower(new Refusal()), { note: thrower(Error()) }), [W, FAIL], Refusal],
];

for (const [name, act, lines, kind] of CASES)
    test(name, async (t) => {
        const file = room(t)();
        const recorder = new Recorder(file, { fails: Refusal });
        const tried = async () => act(recorder.client("alice"));
        if (kind) await assert.rejects(tried, kind);
        else await tried();
        recorder.close();
        assert.deepEqual(linesOf(file), lines);
    });

test("an answer is returned as the call gave it", async (t) => {
    const alice = new Recorder(room(t)(), { answers: (text) => Number(text) }).client("alice");
    assert.equal(alice.read("x", () => "7"), "7");
    assert.equal(
        await alice.read("x", async () => "7"),
        "7",
    );
    const answer = alice.write("x", 1, async () => "OK");
    assert.ok(answer instanceof Promise);
    assert.equal(await answer, "OK");
});

test("rules of a recorder and of a client", (t) => {
    const file = room(t)();
    const recorder = new Recorder(file, { fails: [Refusal, TypeError], answers: Number });
    const bob = recorder.client("bob", { fails: (error) => error.message === "certain", answers: (it) => it });
    assert.throws(() => recorder.client("alice").write("x", 1, thrower(new TypeError())));
    assert.throws(() => bob.write("x", 2, thrower(new TypeError())));
    assert.throws(() => bob.write("x", 3, thrower(new Error("certain"))));
    recorder.client("alice").read("x", () => "7");
    bob.read("x", () => "7");
    assert.deepEqual(
        linesOf(file).filter(([word]) => word !== "begin"),
        [FAIL, ["lost", "bob"], ["fail", "bob"], ["end", "alice", 7], ["end", "bob", "7"]],
    );
    for (const fails of ["no", [1], {}]) assert.throws(() => recorder.client("carol", { fails }), TypeError);
    assert.throws(() => recorder.client("carol", { answers: 1 }), TypeError);
});

test("a rule that waits is none, and its call is lost", (t) => {
    const file = room(t)();
    const alice = new Recorder(file, { fails: async () => true }).client("alice");
    assert.throws(() => alice.write("x", "v", thrower(new Refusal())), TypeError);
    assert.deepEqual(linesOf(file), [W, LOST]);
});

test("clients that call at once", async (t) => {
    const file = room(t)();
    const recorder = new Recorder(file);
    const store = new Map();
    const later = (act) => new Promise((resolve) => setTimeout(() => resolve(act()), Math.random() * 3));
    const played = async (client) => {
        for (let round = 0; round < 30; round++) {
            const value = client.newValue();
            await client.write("x", value, () => later(() => void store.set("x", value)));
            await client.read("x", () => later(() => store.get("x")));
        }
    };
    await Promise.all(["a", "b", "c", "d"].map((name) => played(recorder.client(name))));
    recorder.close();
    const pending = new Map();
    for (const [word, client, call] of linesOf(file)) {
        assert.equal(pending.has(client), word !== "begin");
        if (word === "begin") pending.set(client, call);
        else pending.delete(client);
    }
    assert.equal(linesOf(file).length, 4 * 30 * 4);
});

test("new values, also after the log was opened again", (t) => {
    const file = room(t)();
    const first = new Recorder(file);
    const [alice, one] = [first.client("alice"), first.client("1")];
    alice.write("x", alice.newValue(), () => 1);
    alice.write("x", alice.newValue(), () => 1);
    assert.equal(one.newValue(), "'1.1");
    assert.equal(first.client(1).newValue(), "1.1");
    first.close();
    const second = new Recorder(file);
    assert.equal(second.client("alice").newValue(), "alice.3");
    second.close();
});

test("a log goes on: a torn line is cut, and what is pending is lost", (t) => {
    const file = room(t)();
    fs.writeFileSync(file, `${JSON.stringify(W)}\n\n["end","ali`);
    const recorder = new Recorder(file);
    recorder.client("alice").read("x", () => "v");
    recorder.close();
    assert.deepEqual(linesOf(file), [W, LOST, R, ["end", "alice", "v"]]);
});

test("a log whose last line lacks its line feed goes on", (t) => {
    const file = room(t)();
    fs.writeFileSync(file, `${JSON.stringify(W)}\n${JSON.stringify(OK)}`);
    new Recorder(file).close();
    assert.equal(fs.readFileSync(file, "utf8"), `${JSON.stringify(W)}\n${JSON.stringify(OK)}\n`);
});

test("a log that a recorder begins says that it is in the order of time", (t) => {
    const file = room(t)();
    const recorded = (before) => {
        fs.writeFileSync(file, before);
        const recorder = new Recorder(file, { start: { x: 1 } });
        recorder.client("alice").beginRead("x");
        recorder.close();
        return fs.readFileSync(file, "utf8");
    };
    const written = `["start","x",1]\n${JSON.stringify(R)}\n`;
    for (const [before, blanks] of [["", ""], ["\n \n", "\n \n"], [" \t", " \t\n"], ['\n["sta', "\n"]])
        assert.equal(recorded(before), blanks + ORDER_LINE + written);
    for (let cut = 0; cut <= ORDER_LINE.length; cut++) assert.equal(recorded(ORDER_LINE.slice(0, cut)), ORDER_LINE + written);
});

test("a log that goes on says what it said of the order of time", (t) => {
    const file = room(t)();
    const firsts = [JSON.stringify(W), '["start","x",1]', `${JSON.stringify(W)}\n["los`, ORDER_LINE.trim(), `\n${ORDER_LINE}["e`];
    for (const first of firsts) {
        fs.writeFileSync(file, first);
        for (let times = 0; times < 3; times++) {
            const recorder = new Recorder(file);
            recorder.client("bob").read("x", () => null);
            recorder.close();
            assert.equal(fs.readFileSync(file, "utf8").split(ORDER_LINE).length, first.includes("order") ? 2 : 1);
        }
    }
});

test("a log of nothing is in the order of time", (t) => {
    const file = room(t)();
    for (let times = 0; times < 2; times++) {
        new Recorder(file).close();
        assert.equal(fs.readFileSync(file, "utf8"), ORDER_LINE);
    }
});

test("a bad log is left as it is", (t) => {
    const file = room(t)();
    for (const [text, line] of [
        [`${JSON.stringify(OK)}\n`, 1],
        [`${JSON.stringify(W)}\n["end","alice","no"]\n`, 2],
        ["{}\n", 1],
        ["[1\n", 1],
        [`["begin","alice",["w","x",1.0]]\n`, 1],
        [`["begin","alice",["w","x",-0]]\n`, 1],
        [`["begin",18446744073709551616,["r","x"]]\n`, 1],
        [`["begin","\\ud800",["r","x"]]\n`, 1],
        [`["begin","alice",["r","x"],"\\ud800"]\n`, 1],
        [`["start","x",1]\n["start","x",1]\n`, 2],
        [ORDER_LINE + ORDER_LINE, 2],
        [`${JSON.stringify(W)}\n${ORDER_LINE}`, 2],
        [`["start","x",1]\n${ORDER_LINE}`, 2],
        ['["order"]\n', 1],
        ['["order","lines"]\n', 1],
        ['["order","time",1]\n', 1],
        [`["begin","alice",["w","x","${"v".repeat(1_000_000)}"]]\n`, 1],
        [`["begin","alice",["w","x","${"v".repeat(1_000_000)}"]]`, 1],
    ]) {
        fs.writeFileSync(file, text);
        assert.throws(() => new Recorder(file), (error) => error instanceof LogError && error.line === line);
        assert.equal(fs.readFileSync(file, "utf8"), text);
    }
});

test("whole numbers of 64 bits", (t) => {
    const file = room(t)();
    const recorder = new Recorder(file);
    const client = recorder.client(2n ** 64n - 1n);
    client.write(0, -(2n ** 63n), () => 1);
    client.read(2n ** 53n, () => 2n ** 64n - 1n);
    assert.throws(() => client.write("x", 2n ** 64n, () => 1), RangeError);
    assert.throws(() => client.write("x", -(2n ** 63n) - 1n, () => 1), RangeError);
    assert.throws(() => client.write(-1, 1, () => 1), RangeError);
    assert.throws(() => client.write("x", 2 ** 53, () => 1), RangeError);
    recorder.close();
    assert.equal(
        fs.readFileSync(file, "utf8"),
        `["order","time"]
["begin",18446744073709551615,["w",0,-9223372036854775808]]
["end",18446744073709551615,"ok"]
["begin",18446744073709551615,["r",9007199254740992]]
["end",18446744073709551615,18446744073709551615]
`,
    );
    const again = new Recorder(file);
    assert.throws(() => again.start("x", 1), /comes after a begin/);
    again.close();
});

test("starts", (t) => {
    const file = room(t)();
    new Recorder(file, { start: { x: "a", y: true } }).close();
    const recorder = new Recorder(file, { start: new Map([["x", "a"], [1, 2n]]) });
    assert.throws(() => recorder.start("y", 1), /starts with true already/);
    recorder.start(1n, 2);
    recorder.client("alice").read("x", () => "a");
    assert.throws(() => recorder.start("z", 1), /comes after a begin/);
    recorder.close();
    assert.deepEqual(linesOf(file).slice(0, 3), [["start", "x", "a"], ["start", "y", true], ["start", 1, 2]]);
    assert.equal(linesOf(file).length, 5);
});

test("the longest line, and the deepest note", (t) => {
    const file = room(t)();
    const alice = new Recorder(file).client("alice");
    const most = 1_000_000 - JSON.stringify(["begin", "alice", ["w", "x", ""]]).length;
    assert.throws(() => alice.write("x", "v".repeat(most + 1), () => 1), RangeError);
    alice.write("x", "v".repeat(most), () => 1);
    const nested = (depth) => (depth ? [nested(depth - 1)] : 1);
    assert.throws(() => alice.write("x", 1, () => 1, { note: nested(51) }), RangeError);
    assert.throws(() => alice.write("x", 1, () => 1, { note: 1e301 }), RangeError);
    alice.write("x", 1, () => 1, { note: nested(50) });
    assert.equal(linesOf(file).length, 4);
});

test("tries of a write", async (t) => {
    const file = room(t)();
    const recorder = new Recorder(file, { fails: Refusal });
    const alice = recorder.client("alice");
    let tries = 0;
    const tried = async (value) => (++tries < 3 ? thrower(new RangeError())() : value);
    const answer = await alice.retry("x", tried, { pause: (number) => number });
    assert.equal(answer, "alice.3");
    await assert.rejects(alice.retry("x", thrower(new Refusal())), Refusal);
    await assert.rejects(alice.retry("x", thrower(new RangeError()), { tries: 2 }), RangeError);
    await assert.rejects(alice.retry("x", () => 1, { tries: 0 }), RangeError);
    const words = linesOf(file).map(([word, , call]) => (word === "begin" ? call[2] : word));
    const ends = ["lost", "lost", "end", "fail", "lost", "lost"];
    assert.deepEqual(words, ends.flatMap((word, place) => [`alice.${place + 1}`, word]));
});

test("a client that connects anew", (t) => {
    const file = room(t)();
    const recorder = new Recorder(file);
    const alice = recorder.client("alice");
    alice.beginWrite("x", "v");
    recorder.client("alice#3");
    const second = alice.reconnected();
    assert.equal(second.name, "alice#2");
    assert.equal(second.reconnected().name, "alice#4");
    assert.throws(() => alice.read("x", () => 1), /is over/);
    assert.deepEqual(linesOf(file), [W, LOST]);
});

test("a client that is left", (t) => {
    const file = room(t)();
    const recorder = new Recorder(file);
    const alice = recorder.client("alice");
    alice.beginRead("x");
    alice.leave();
    assert.throws(() => alice.beginRead("x"), /is over: it was left/);
    recorder.close();
    recorder.close();
    assert.deepEqual(linesOf(file), [R, LOST]);
    assert.throws(() => recorder.client("bob").beginRead("x"), /is closed/);
});
