// What the tests share: the package as it is installed beside them, a folder for each test, and the events of a log.

import fs from "node:fs";
import os from "node:os";
import path from "node:path";
import { spawnSync } from "node:child_process";
import { pathToFileURL } from "node:url";

// The folder of the package: its files that are not exported are tested too.
export const PACKAGE = path.dirname(new URL(import.meta.resolve("causal-judge")).pathname);
export const COMMAND = path.join(PACKAGE, "bin", "causal_judge.js");
export const PROGRAM = process.env.CAUSAL_JUDGE;
export const EXAMPLES = process.env.CAUSAL_JUDGE_EXAMPLES;
export const BACKEND = new URL("native_backend.mjs", import.meta.url).pathname;

/** What a file of the package exports. */
export const inner = (name) => import(pathToFileURL(path.join(PACKAGE, "lib", name)));

/** A folder of its own for a test, which is removed after it. */
export function room(t) {
    const folder = fs.mkdtempSync(path.join(os.tmpdir(), "node-package-"));
    t.after(() => fs.rmSync(folder, { recursive: true, force: true }));
    return (name = "run.jsonl") => path.join(folder, name);
}

/** The first line of a log that a recorder began. */
export const ORDER_LINE = '["order","time"]\n';

/** The events of a log, but for that of the order of time. */
export const linesOf = (file) =>
    fs
        .readFileSync(file, "utf8")
        .replace(ORDER_LINE, "")
        .split("\n")
        .filter((line) => line)
        .map((line) => JSON.parse(line));

/** How a command ends, with what it writes. */
export function ran(words, { input = "", cwd } = {}) {
    const before = process.env.CAUSAL_JUDGE_BACKEND === "native" ? ["--import", BACKEND] : [];
    return outcome(spawnSync(process.execPath, [...before, COMMAND, ...words], { input, cwd, maxBuffer: 1 << 28 }));
}

/** How the program ends, with what it writes. */
export const ranNatively = (words, { input = "", cwd } = {}) => outcome(spawnSync(PROGRAM, words, { input, cwd, maxBuffer: 1 << 28 }));

const outcome = ({ status, stdout, stderr }) => ({ status, out: stdout.toString("utf8"), said: stderr.toString("utf8") });

/** The first line of a text. */
export const first = (text) => text.split("\n", 1)[0];

/** The log of a client that loses its own write. */
export const LOST_WRITE = `["begin","alice",["w","user:5","v1"]]
["end","alice","ok"]
["begin","alice",["r","user:5"]]
["end","alice",null]
`;
export const HEALTHY = LOST_WRITE.replace("null", '"v1"');
