// The command: the words of the program causal_judge, as far as they make sense here.

import fs from "node:fs";

import { ANSWERED, NO_MEMORY, REFUSED, ask } from "./backend.js";
import { formOf } from "./form.js";
import { CRITERIA, PREFIXES } from "./judge.js";
import { isTorn } from "./log_reader.js";
import { HELP, VERSION_TEXT } from "./help.js";

// (process.stdin and its like would have the streams not wait)
const [STANDARD_INPUT, STANDARD_OUTPUT, STANDARD_ERROR] = [0, 1, 2];
const CHUNK = 1 << 16;
const PAUSE = 5;

const MET = 0;
const USAGE = 2;
export const FAULT = 3;
const NOT_MET = 5;
const UNKNOWN = 6;
// The statuses of several inputs, from the best to the worst.
const RANKS = [MET, UNKNOWN, NOT_MET, REFUSED, FAULT, NO_MEMORY, USAGE];

// For each command its options: those with a value, and those that form the answer.
const COMMANDS = {
    judge: { options: ["--expect", "--long", "--events"] },
    explain: { options: ["--json", "--svg", "--html", "--long", "--events", "-o"] },
    check: { options: [] },
    refute: { options: ["--long"] },
    events: { options: [] },
};
const NAMES = Object.keys(COMMANDS).join(", ");
const WITH_VALUE = ["--expect", "-o"];
const ANSWERS = { "--html": "explain_page", "--svg": "explain_picture", "--json": "explain" };
const OF_PROGRAM = ["replay", "drive"];
const OPTIONS_OF_PROGRAM = {
    judge: ["--workers", "--lines", "--skip-blank", "--every", "--summary", "--at-least-reads", "--color", "--why", "--progress"],
    explain: ["--certificates", "--all", "--color", "--why", "--progress"],
    check: ["--workers", "--why", "--progress"],
    refute: ["--why", "--progress"],
    events: ["--names", "--notes", "--progress"],
};

/** Words that ask for nothing: the message says why. */
class Misuse extends Error {}

/** Does what the words ask for, and returns the exit status. */
export function run(words) {
    const say = (text) => written(STANDARD_ERROR, Buffer.from(text));
    let asked;
    try {
        asked = askedIn(words);
    } catch (error) {
        if (!(error instanceof Misuse)) throw error;
        say(`error: ${error.message}\n\nFor more information, try '--help'.\n`);
        return USAGE;
    }
    try {
        if (asked.text) return written(STANDARD_OUTPUT, Buffer.from(asked.text));
        const names = asked.files.length ? asked.files : [null];
        const ranks = names.map((name) => RANKS.indexOf(statusOf(asked, name, say)));
        return RANKS[Math.max(...ranks)];
    } catch (error) {
        if (error.code === "EPIPE") return FAULT;
        throw error;
    }
}

/** What words ask for. Throws Misuse where they ask for nothing. */
function askedIn(words) {
    const [command, ...rest] = words;
    if (command === "--version" || command === "-V") return { text: VERSION_TEXT };
    if (command === "help" || words.includes("--help") || words.includes("-h")) return { text: HELP };
    if (command === undefined) throw new Misuse(`a command is wanted: ${NAMES} or help`);
    if (OF_PROGRAM.includes(command)) throw new Misuse(`'${command}' is a command of the program alone, which the other packages have`);
    if (!Object.hasOwn(COMMANDS, command)) throw new Misuse(`there is no command '${command}': there are ${NAMES} and help`);
    return checked({ command, said: new Map(), files: [] }, rest);
}

function checked(asked, rest) {
    const { options } = COMMANDS[asked.command];
    for (let place = 0; place < rest.length; place++) {
        const [word, joined] = rest[place].startsWith("--") ? split(rest[place]) : [rest[place]];
        if (word === "-" || !word.startsWith("-")) {
            asked.files.push(word);
            continue;
        }
        if (OPTIONS_OF_PROGRAM[asked.command].includes(word))
            throw new Misuse(`'${word}' is an option of the program alone, which the other packages have`);
        if (!options.includes(word)) throw new Misuse(`'${asked.command}' has no option '${word}'`);
        if (asked.said.has(word)) throw new Misuse(`'${word}' is said twice`);
        if (WITH_VALUE.includes(word)) asked.said.set(word, valueOf(word, joined ?? rest[++place]));
        else if (joined === undefined) asked.said.set(word, true);
        else throw new Misuse(`'${word}' takes no value`);
    }
    const forms = Object.keys(ANSWERS).filter((word) => asked.said.has(word));
    if (forms.length > 1) throw new Misuse(`'${forms[0]}' and '${forms[1]}' exclude one another: each is a form of the whole answer`);
    if (asked.files.length > 1 && (asked.said.has("-o") || asked.said.has("--html")))
        throw new Misuse("'-o' and '--html' take one FILE: each file has an answer of its own");
    return asked;
}

function split(word) {
    const place = word.indexOf("=");
    return place < 0 ? [word] : [word.slice(0, place), word.slice(place + 1)];
}

function valueOf(word, value) {
    if (value === undefined) throw new Misuse(`a value is required for '${word}' but none was supplied`);
    if (word !== "--expect") return value;
    const criteria = value.split(",");
    if (!criteria.every((one) => CRITERIA.includes(one)) || new Set(criteria).size < criteria.length)
        throw new Misuse(`'--expect' takes one or more of cc, cm and ccv, each once, joined by commas, and not '${value}'`);
    return criteria;
}

/** Answers what is asked on one input, of a file, or of standard input, and returns the status. */
function statusOf(asked, name, say) {
    const label = asked.files.length > 1 ? `${name}: ` : "";
    const named = (text) => (label ? text.replace(/^(?=.|\n)/gm, label) : text);
    const input = inputOf(name, say);
    if (input === null) return FAULT;
    const form = formAsked(asked, name === null ? null : formOf(input));
    const { status, text } = answered(callFor(asked, form), input, say);
    if (form === "log" && status === ANSWERED && isTornLog(input)) say(named("last line is not whole: passed over\n"));
    if (status === REFUSED) say(named(text));
    if (status === NO_MEMORY) say(named("no memory\n"));
    if (status !== ANSWERED) return status;
    if (asked.said.has("-o")) return saved(asked.said.get("-o"), text, say);
    written(STANDARD_OUTPUT, Buffer.from(named(text)));
    return statusBy(asked, text);
}

/** What the judge answers. One that ends without an answer, as for want of stack, has no memory. */
function answered(call, input, say) {
    try {
        return ask(call, input);
    } catch (error) {
        say(`${error.message}\n`);
        return { status: NO_MEMORY, text: "" };
    }
}

/** The form in which an input is read: what the words say, and else what its first text shows. */
function formAsked({ command, said }, seen) {
    if (command === "events") return "log";
    if (command === "check") return "history";
    if (command !== "refute" && (said.has("--events") || seen === "log")) return "log";
    return said.has("--long") || seen === "long" ? "long" : "history";
}

function callFor({ command, said }, form) {
    if (command === "events") return "log_events";
    if (command !== "explain") return PREFIXES[form] + command;
    const word = Object.keys(ANSWERS).find((it) => said.has(it));
    return PREFIXES[form] + (word ? ANSWERS[word] : "explain_words");
}

/** The bytes of a file, or null where there are none: then it says why. */
function inputOf(name, say) {
    try {
        return name === null || name === "-" ? bytesOf(STANDARD_INPUT) : fs.readFileSync(name);
    } catch (error) {
        const faults = { ENOENT: "there is no such file", EACCES: "it may not be read", EISDIR: "it is a folder" };
        say(name === null ? "read fault\n" : `${name}: ${faults[error.code] ?? "it can't be read"}\n`);
        return null;
    }
}

/** Whether the last line of a log has no line feed and is no JSON. */
function isTornLog(bytes) {
    return bytes.at(-1) !== 10 && isTorn(bytes.subarray(bytes.lastIndexOf(10) + 1));
}

/** Writes an answer beside a file first, under the file's name with `.part` after it, which then takes the place of the file. */
function saved(name, answer, say) {
    const part = `${name}.part`;
    try {
        fs.writeFileSync(part, answer);
        fs.renameSync(part, name);
        return MET;
    } catch {
        fs.rmSync(part, { force: true });
        say(`${name}: the answer can't be written there\n`);
        return FAULT;
    }
}

/** Writes bytes, all of them, and returns the status. */
function written(file, bytes) {
    for (let from = 0; from < bytes.length; ) from += waited(() => fs.writeSync(file, bytes, from));
    return MET;
}

/** All bytes of a stream. */
function bytesOf(file) {
    const chunks = [];
    for (;;) {
        const chunk = Buffer.allocUnsafe(CHUNK);
        const count = waited(() => fs.readSync(file, chunk, 0, CHUNK, null));
        if (count === 0) return Buffer.concat(chunks);
        chunks.push(chunk.subarray(0, count));
    }
}

/** What a read or a write gives, which is made again where the stream is not ready: a parent may have it not wait by itself. */
function waited(made) {
    for (;;)
        try {
            return made();
        } catch (error) {
            if (error.code === "EOF") return 0;
            if (error.code !== "EAGAIN") throw error;
            Atomics.wait(new Int32Array(new SharedArrayBuffer(4)), 0, 0, PAUSE);
        }
}

/** The status that --expect asks for, of an answer of `judge`. */
function statusBy({ said }, answer) {
    const criteria = said.get("--expect") ?? [];
    const lines = answer.split("\n");
    const words = criteria.map((criterion) => lines.find((line) => line.startsWith(`${criterion} `)).split(" ")[1]);
    return words.includes("no") ? NOT_MET : words.includes("unknown") ? UNKNOWN : MET;
}
