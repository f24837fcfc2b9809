// What is said of runs: `judge`, `explain` and `assertMet`, beside what the program says where it is there.

import assert from "node:assert/strict";
import fs from "node:fs";
import path from "node:path";
import test from "node:test";
import { pathToFileURL } from "node:url";

import { Recorder, Refused, assertMet, explain, judge } from "causal-judge";
import { EXAMPLES, HEALTHY, LOST_WRITE, ORDER_LINE, PROGRAM, first, inner, linesOf, ranNatively, room } from "./support.mjs";

const { formOf } = await inner("form.js");
const FORMS = { words: [], json: ["--json"], picture: ["--svg"], page: ["--html"] };

test("a log that loses a write", () => {
    const verdict = judge(LOST_WRITE);
    assert.equal(String(verdict), "cc no WriteCOInitRead\ncm no WriteCOInitRead\nccv no WriteCOInitRead");
    assert.deepEqual([verdict.cc.criterion, verdict.cc.answer, verdict.cc.kind], ["cc", "no", "WriteCOInitRead"]);
    assert.equal(verdict.meets("cc"), false);
    assert.deepEqual(verdict.unmet("cm", "ccv").map(String), ["cm no WriteCOInitRead", "ccv no WriteCOInitRead"]);
    assert.match(verdict.explanation, /^cc no WriteCOInitRead\n {2}line 1: "alice" writes "v1" to "user:5"\n/);
    assert.throws(() => verdict.meets("linearizability"), RangeError);
});

test("a healthy log, as bytes", () => {
    const verdict = judge(new TextEncoder().encode(HEALTHY));
    assert.equal(verdict.meets(), true);
    assert.equal(verdict.cc.kind, null);
    assert.deepEqual(verdict.unmet(), []);
});

test("a history, also one that is unknown", () => {
    assert.equal(judge('["memory",[[["w",0,1]],[["r",0,1]]]]').meets(), true);
    const verdict = judge('["memory",[[["w",0,1],["w",0,1],["r",0,0]]]]');
    assert.equal(verdict.cc.answer, "unknown");
    assert.equal(verdict.cc.kind, null);
    assert.equal(verdict.meets("cc"), false);
});

test("the forms of an explanation", () => {
    assert.match(explain(LOST_WRITE), /This breaks read your writes/);
    assert.equal(JSON.parse(explain(LOST_WRITE, "json"))[0][2][0], "WriteCOInitRead");
    assert.match(explain(LOST_WRITE, "picture"), /^<svg/);
    assert.match(explain(LOST_WRITE, "page"), /^<!DOCTYPE html>[^]*<\/html>\n$/i);
    assert.throws(() => explain(LOST_WRITE, "html"), RangeError);
});

test("what is refused", () => {
    assert.throws(() => judge("nonsense"), (error) => error instanceof Refused && error.message.startsWith("refused 1"));
    assert.throws(() => judge(""), Refused);
    assert.throws(
        () => judge('["begin","alice",["w","x",1]]\n["end","alice"]\n'),
        (error) => error instanceof Refused && /^refused 30 2\nline 2: no event/.test(error.message),
    );
    assert.throws(() => explain('["memory",[[["w",0]]]]', "json"), Refused);
    assert.throws(() => judge(5), TypeError);
    assert.throws(() => judge('["memory",[]]\ud800'), RangeError);
});

test("a torn last line is passed over", () => assert.equal(judge(`${HEALTHY}["begin","bob"`).meets(), true));

test("the form of an input", () => {
    for (const [text, form] of [
        ["", "history"],
        ['[ \t\r\n["start"', "log"],
        ['["begin","a",', "log"],
        [ORDER_LINE, "log"],
        ['["beginning"', "history"],
        ['"memory"', "long"],
        ['[["memory",[', "long"],
        ['["mem', "history"],
        ['["counter",[]]', "history"],
        ["{}", "history"],
        [`${" ".repeat(4607)}"lost"`, "history"],
        [`${" ".repeat(4590)}"lost"`, "log"],
    ])
        assert.equal(formOf(Buffer.from(text)), form, text.trim());
});

const examples = EXAMPLES && PROGRAM ? fs.readdirSync(EXAMPLES).filter((name) => /\.jsonl?$/.test(name)) : [];

test("each example, as the program answers it", { skip: !examples.length && "CAUSAL_JUDGE names no program" }, () => {
    const wrong = [];
    for (const name of examples) {
        const text = fs.readFileSync(path.join(EXAMPLES, name));
        for (const [form, words] of [[null, ["judge"]], ...Object.entries(FORMS).map(([form, words]) => [form, ["explain", ...words]])]) {
            const due = ranNatively([...words, path.join(EXAMPLES, name)]);
            let found;
            try {
                found = form ? explain(text, form) : `${judge(text)}\n`;
            } catch (error) {
                found = `${error.message}\n`;
            }
            if (due.status === 0 ? found !== due.out : first(found) !== first(due.said)) wrong.push(`${name} ${words.join(" ")}`);
        }
    }
    assert.deepEqual(wrong, []);
    assert.ok(examples.length > 10);
});

function recorded(file, ...reads) {
    const recorder = new Recorder(file);
    const [alice, bob] = [recorder.client("alice"), recorder.client("bob")];
    alice.write("x", "v1", () => 1);
    for (const found of reads) bob.read("x", () => found);
    return recorder;
}

test("an assertion on a log that meets it", (t) => {
    const file = room(t)();
    const recorder = recorded(file, "v1", "v1");
    assert.equal(assertMet(recorder, ["cc"]).cc.answer, "yes");
    assert.equal(assertMet(file).meets(), true);
    assert.equal(assertMet(pathToFileURL(file), ["cc", "cm"], { atLeastReads: 2 }).meets(), true);
});

test("an assertion on a log that does not", (t) => {
    const place = room(t);
    const recorder = recorded(place(), "v1", null);
    assert.throws(
        () => assertMet(recorder, ["cc", "cm"], { page: place("deep/run.html") }),
        (error) => {
            assert.equal(error.name, "AssertionError");
            assert.match(error.message, /^cc no WriteCOInitRead\n {2}line 2: "alice" writes "v1" to "x"\n/);
            assert.ok(error.message.endsWith(`run.jsonl does not meet cc, cm.\nThe page ${place("deep/run.html")} shows it.`));
            assert.equal(error.actual.split("\n").length, 3);
            assert.equal(error.expected, "cc yes\ncm yes");
            return true;
        },
    );
    assert.match(fs.readFileSync(place("deep/run.html"), "utf8"), /<\/html>\n$/);
});

test("an assertion on a log that is not known to meet it", (t) => {
    const file = room(t)();
    const written = '["begin",1,["w",0,1]]\n["end",1,"ok"]\n';
    fs.writeFileSync(file, `${written}${written}["begin",1,["r",0]]\n["end",1,null]\n`);
    assert.throws(() => assertMet(file, ["cc"]), /is not known to meet cc\.$/);
});

test("an assertion on a log that doesn't say the order of time", (t) => {
    const file = room(t)();
    for (const log of [HEALTHY, ORDER_LINE + HEALTHY, `\n${ORDER_LINE}${HEALTHY}`]) {
        fs.writeFileSync(file, log);
        assert.equal(assertMet(file, ["cc"], { atLeastReads: 1 }).meets(), true);
        assert.throws(() => assertMet(file, ["cc"], { atLeastReads: 2 }), /: 1 read was answered, and atLeastReads is 2:/);
    }
});

test("an assertion on a log with too few reads", (t) => {
    const place = room(t);
    recorded(place()).close();
    assert.throws(() => assertMet(place(), ["cc"]), /: no read was answered, and atLeastReads is 1:/);
    assert.equal(assertMet(place(), ["cc"], { atLeastReads: 0 }).meets(), true);
    recorded(place("other"), "v1").close();
    assert.throws(() => assertMet(place("other"), ["cc"], { atLeastReads: 2 }), /: 1 read was answered, and atLeastReads is 2:/);
    fs.writeFileSync(place("empty"), "");
    assert.throws(() => assertMet(place("empty")), /no read was answered/);
});

test("an assertion that is asked wrongly", (t) => {
    const place = room(t);
    recorded(place(), "v1").close();
    assert.throws(() => assertMet(place(), ["ccc"]), RangeError);
    assert.throws(() => assertMet(place(), "cc"), TypeError);
    assert.throws(() => assertMet(place(), ["cc"], { atLeastReads: -1 }), RangeError);
    assert.throws(() => assertMet(place("none")), { code: "ENOENT" });
    fs.writeFileSync(place("history"), '["memory",[]]');
    assert.throws(() => assertMet(place("history")), Refused);
    fs.mkdirSync(place("page"));
    recorded(place("bad"), "v2").close();
    assert.throws(() => assertMet(place("bad"), ["cc"], { page: place("page") }), /There is no page .*page of it: /);
    assert.equal(linesOf(place("bad")).length, 4);
});
