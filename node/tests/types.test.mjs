// The types of the package, by TypeScript's compiler where it is there.

import assert from "node:assert/strict";
import { spawnSync } from "node:child_process";
import fs from "node:fs";
import path from "node:path";
import test from "node:test";

import * as exported from "causal-judge";
import { PACKAGE, room } from "./support.mjs";

const RIGHT = `
import { Recorder, Refused, Verdict, assertMet, explain, judge, type Criterion, type Value } from "causal-judge";
class Refusal extends Error {}
const recorder = new Recorder("run.jsonl", { start: { x: 1 }, fails: [Refusal], answers: (text: string) => Number(text) });
const alice = recorder.client("alice", { fails: (error) => error instanceof Refusal });
const one: number = alice.write("x", alice.newValue(), () => 5, { note: { server: "n1" } });
const two: Promise<string | null> = alice.read("x", async () => null as string | null);
const three: Promise<number> = alice.delete("x", async () => 5, { found: (count) => count > 0 });
const four: boolean = alice.compareAndSet(1n, true, () => true);
const five: Promise<number> = alice.retry("x", async (value) => 5, { tries: 2, pause: (tries) => 10 * tries });
const call = alice.beginRead("x");
call.end("v", { note: 1 });
alice.beginWrite("x", 1).settle(5, (count) => (count > 3 ? true : null));
const verdict: Verdict = judge(new Uint8Array());
const answer: "yes" | "no" | "unknown" = verdict.cc.answer;
const wanted: Criterion[] = ["cc"];
assertMet(recorder, wanted, { atLeastReads: 2, page: new URL("file:///run.html") });
assertMet("run.jsonl", ["cc", "ccv"]);
const page: string = explain("", "page");
const value: Value = 1n;
if (new Refused() instanceof Error) alice.reconnected().leave();
export { answer, five, four, one, page, three, two, value };
`;
const WRONG = [
    'judge(5);',
    'explain("", "html");',
    'assertMet("run.jsonl", ["linearizable"]);',
    'new Recorder("run.jsonl").client("a").write("x", null, () => 1);',
    'new Recorder("run.jsonl").client("a").write("x", 1);',
    'new Recorder("run.jsonl", { fails: 1 });',
    "new Recorder();",
];

const CONFIGURED = {
    compilerOptions: {
        ...{ noEmit: true, strict: true, target: "es2022", lib: ["es2022", "dom"], types: [] },
        ...{ module: "nodenext", moduleResolution: "nodenext" },
    },
};

test("each name that is exported has a type", () => {
    const types = fs.readFileSync(path.join(PACKAGE, "index.d.ts"), "utf8");
    const declared = [...types.matchAll(/^export (?:class|function) (\w+)/gm)].map((found) => found[1]);
    assert.deepEqual(Object.keys(exported).sort(), declared.sort());
});

const tsc = spawnSync("tsc", ["--version"]).status === 0;

test("the types say what is right and what is wrong", { skip: !tsc && "tsc is missing: apt-get install node-typescript" }, (t) => {
    const place = room(t);
    fs.mkdirSync(place("node_modules"));
    fs.symlinkSync(PACKAGE, place("node_modules/causal-judge"));
    fs.writeFileSync(place("package.json"), '{"type":"module"}');
    fs.writeFileSync(place("tsconfig.json"), JSON.stringify(CONFIGURED));
    const compiled = () => spawnSync("tsc", ["--project", "."], { cwd: place(""), encoding: "utf8" }).stdout;
    fs.writeFileSync(place("right.ts"), RIGHT);
    assert.equal(compiled(), "");
    const head = 'import { Recorder, assertMet, explain, judge } from "causal-judge";';
    const tail = "export { Recorder, assertMet, explain, judge };";
    for (const [number, line] of WRONG.entries())
        fs.writeFileSync(place(`wrong${number}.ts`), `${head}\nexport const it = () => { ${line} };\n${tail}\n`);
    const found = compiled();
    for (const [number, line] of WRONG.entries()) assert.match(found, new RegExp(`^wrong${number}\\.ts\\(2,`, "m"), line);
});
