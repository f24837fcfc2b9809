// The form of an event, one line of a log: which names and values there are, the text of a line, and which event may come next.
//
// docs/events.md of the repository has the whole form. An event is here the array that its JSON is, as ["begin", "alice", ["w", "k",
// "v1"]]. A whole number is a number up to 2^53 - 1, or a BigInt.

import { Fraction, encode, shown } from "./json.js";

export const MOST_LINE = 1_000_000;

const LATE_ORDER = 'the order of time is said after an event, or twice: ["order","time"] is the first event of a log';

const MOST_NAME = 2n ** 64n - 1n;
const LEAST_VALUE = -(2n ** 63n);
const LENGTHS = { order: [2, 2], start: [3, 3], begin: [3, 4], end: [3, 4], fail: [2, 3], lost: [2, 3] };

/**
 * The first event of a log whose lines stand in the order of time: each begin was appended before the call was made, and each end after its
 * answer came, to this one file.
 */
export const ORDER = ["order", "time"];

const isWhole = (it) => typeof it === "bigint" || Number.isSafeInteger(it);

/** Throws where a text has half of a surrogate pair, which no UTF-8 has. */
function checkText(text) {
    if (!text.isWellFormed())
        throw new RangeError("a text has half of a surrogate pair, which no UTF-8 has: write it in hexadecimal digits");
}

/** Throws, with what to write instead, where this can name no client and no key. */
export function checkName(name) {
    if (typeof name === "string") checkText(name);
    else if (!isWhole(name)) throw new TypeError(`a client or a key is a text or a whole number, not ${shown(name)}: write it as a text`);
    else if (name < 0 || name > MOST_NAME)
        throw new RangeError(`a client or a key that is a number is from 0 to 2^64 - 1, not ${name}: write it as a text`);
}

/** Throws, with what to write instead, where no key can hold this value. */
export function checkValue(value) {
    if (typeof value === "string") checkText(value);
    else if (value === null || value === undefined)
        throw new TypeError(`${value} is no value: a key that holds nothing has no start, and a delete is no write`);
    else if (ArrayBuffer.isView(value))
        throw new TypeError("bytes are no value: decode them, or write them as a text in hexadecimal digits");
    else if (typeof value === "number" && Number.isInteger(value) && !isWhole(value))
        throw new RangeError(`${value} may have lost digits: write a whole number from 2^53 on as a BigInt`);
    else if (typeof value === "number" && !isWhole(value)) throw new TypeError(`a fraction is no value: write ${value} as a text`);
    else if (value instanceof Fraction) throw new TypeError(`${value.text} is no value: write it as a text`);
    else if (typeof value !== "boolean" && !isWhole(value))
        throw new TypeError(`a value is a text, a whole number or a boolean, not ${shown(value)}: write it as a text`);
    else if (typeof value !== "boolean" && (value < LEAST_VALUE || value > MOST_NAME))
        throw new RangeError(`a value that is a number is from -2^63 to 2^64 - 1, not ${value}: write it as a text`);
}

/** Throws where this is no form of an event. Of a note nothing is asked. */
export function checkEvent(event) {
    const [word, name, more] = Array.isArray(event) ? event : [];
    const [least, most] = (typeof word === "string" && Object.hasOwn(LENGTHS, word) && LENGTHS[word]) || [1, 0];
    const isCall = word !== "begin" || (Array.isArray(more) && more.length === { w: 3, r: 2, d: 2 }[more[0]]);
    const isOrder = word !== ORDER[0] || name === ORDER[1];
    if (!Array.isArray(event) || event.length < least || event.length > most || !isCall || !isOrder)
        throw new TypeError(`${shown(event)} is no event`);
    checkName(name);
    if (word === "begin") checkName(more[1]);
    if (word === "begin" && more[0] === "w") checkValue(more[2]);
    if (word === "start" || (word === "end" && more !== null)) checkValue(more);
}

/** The line of an event, with its line feed. Throws where it would have more than 1,000,000 bytes. */
export function lineOf(event) {
    const line = Buffer.from(`${encode(event)}\n`, "utf8");
    if (line.length - 1 > MOST_LINE)
        throw new RangeError(`a line of a log has at most ${MOST_LINE} bytes, not ${line.length - 1}: write a digest of the value`);
    return line;
}

/** What tells two names, or two values, apart: 1 and 1n are one, and 1, "1" and true are three. */
export const keyOf = (it) => (typeof it === "string" ? `"${it}` : typeof it === "boolean" ? String(it) : `${BigInt(it)}`);

/** A name that is not taken for a client that connected anew: "alice#2" for "alice", and then "alice#3". */
export function nextName(name, isTaken) {
    const found = typeof name === "string" ? /^([^]*)#([1-9][0-9]{0,14})$/.exec(name) : null;
    const stem = found ? found[1] : String(name);
    for (let count = found ? Number(found[2]) + 1 : 2; ; count++) if (!isTaken(`${stem}#${count}`)) return `${stem}#${count}`;
}

/**
 * What the events so far left open: the clients with a pending call, with its word, and the keys that were started. `isTimed` is whether
 * the log says that its lines stand in the order of time.
 */
export class Progress {
    constructor() {
        this.pending = new Map();
        this.started = new Map();
        this.hasBegun = false;
        this.isTimed = false;
    }

    /** Whether there was no event. */
    get isEmpty() {
        return !this.hasBegun && !this.isTimed && !this.started.size;
    }

    /** Why an event may not come next; an empty text where it may. */
    faultOf([word, name, more]) {
        if (word === "order") return this.isEmpty ? "" : LATE_ORDER;
        const key = keyOf(name);
        if (word === "start") {
            if (this.hasBegun) return `the start of ${shown(name)} comes after a begin`;
            return this.started.has(key) ? `the key ${shown(name)} has a start already` : "";
        }
        const pending = this.pending.get(key);
        if (word === "begin") return pending ? `the client ${shown(name)} has a call pending` : "";
        if (!pending) return `the client ${shown(name)} has no call pending`;
        return word === "end" && pending.word !== "r" && more !== "ok" ? `a write or a delete ends with "ok", not with ${shown(more)}` : "";
    }

    /** The word of the call that a client has pending, if any. */
    wordOf(name) {
        return this.pending.get(keyOf(name))?.word;
    }

    /** Takes in an event that may come next. */
    take([word, name, more]) {
        if (word === "order") this.isTimed = true;
        else if (word === "start") this.started.set(keyOf(name), more);
        else if (word === "begin") {
            this.pending.set(keyOf(name), { name, word: more[0] });
            this.hasBegun = true;
        } else this.pending.delete(keyOf(name));
    }
}
