// Records what clients call and are answered, as a log of events: a line before each call, and one when it ended.

import { fileURLToPath } from "node:url";

import { Rules } from "./calls.js";
import { Client } from "./clients.js";
import { ORDER, Progress, checkEvent, keyOf, lineOf, nextName } from "./events.js";
import { shown } from "./json.js";
import { LogFile } from "./log_file.js";
import { LogError } from "./log_reader.js";

const NUMBERED = /^([^]*)\.([1-9][0-9]{0,14})$/;
const LIKE_A_NUMBER = /^'*[0-9]+$/;

/**
 * Appends events to a log as they happen, each by one write, so that a crash of the process loses at most the line being written.
 *
 * A log that is there already goes on: a torn last line is cut, and each call that is pending is recorded as lost. The first line of one
 * that has no event yet will be ["order","time"]: its lines stand in the order of time, since a begin is written before the call is made,
 * and an end after it was answered. Where calls were made before they are recorded, that is not so: take the line out.
 */
export class Recorder {
    #file;
    #rules;
    #progress = new Progress();
    #calls = new Map();
    #counts = new Map();
    #names = new Set();
    #isOpen = true;

    constructor(path, { start = [], fails, answers } = {}) {
        this.#rules = new Rules({ fails, answers });
        this.path = path instanceof URL ? fileURLToPath(path) : String(path);
        this.#file = new LogFile(this.path);
        try {
            this.#goOn();
            for (const [key, value] of Symbol.iterator in start ? start : Object.entries(start)) this.start(key, value);
        } catch (error) {
            this.close();
            throw error;
        }
    }

    /** The key holds this value before the first call. A start that the log has already is not written again. */
    start(key, value) {
        const event = ["start", key, value];
        checkEvent(event);
        this.#checkUsable();
        const held = this.#progress.started.get(keyOf(key));
        if (held === undefined) this.#append(event, lineOf(event));
        else if (keyOf(held) !== keyOf(value)) throw new Error(`the key ${shown(key)} starts with ${shown(held)} already`);
    }

    /** A client. Two of one name are one client, with one call at a time. It has the recorder's rules unless others are given. */
    client(name, options = {}) {
        const client = new Client(this, name, this.#rules.but(options));
        this.#names.add(keyOf(name));
        return client;
    }

    /** Closes the log, which another recorder may then go on with. A call that is pending stays so: whether it took effect is open. */
    close() {
        if (!this.#isOpen) return;
        this.#isOpen = false;
        this.#file.close();
    }

    /** For clients: a value that none was given before, with the name of this one: "alice.17". */
    newValue(name) {
        const prefix = typeof name === "string" && LIKE_A_NUMBER.test(name) ? `'${name}` : String(name);
        const count = (this.#counts.get(prefix) ?? 0) + 1;
        this.#counts.set(prefix, count);
        return `${prefix}.${count}`;
    }

    /** For clients: a name that no client of the log has, with this one in it. */
    newName(name) {
        this.#checkUsable();
        const found = nextName(name, (other) => this.#names.has(keyOf(other)));
        this.#names.add(keyOf(found));
        return found;
    }

    /** For calls: records that one begins. Throws where its client has another one pending; then nothing is recorded. */
    begin(call, event) {
        checkEvent(event);
        const line = lineOf(event);
        this.#checkUsable();
        const key = keyOf(call.name);
        if (this.#calls.has(key)) throw new Error(`the client ${shown(call.name)} has a call pending: it makes one at a time`);
        // (a call whose end could not be written)
        if (this.#progress.pending.has(key)) this.#appendLost(call.name);
        this.#append(event, line);
        this.#calls.set(key, call);
    }

    /** For calls: records how one ended. Where the line can't be written, it is lost afterwards. */
    finish(call, event, line) {
        this.#checkUsable();
        if (this.pendingCall(call.name) !== call) throw new Error(`the call of ${shown(call.name)} has ended: a call ends once`);
        this.#calls.delete(keyOf(call.name));
        this.#append(event, line);
    }

    /** For clients: the call that one has pending, if any. */
    pendingCall(name) {
        return this.#calls.get(keyOf(name));
    }

    // Takes in the events of the log, and records each call that is pending after them as lost. One without events begins here.
    #goOn() {
        for (const [number, event] of this.#file.events()) {
            const fault = this.#progress.faultOf(event);
            if (fault) throw new LogError(number, fault, this.path);
            this.#progress.take(event);
            this.#noteValue(event);
            if (event[0] === "begin") this.#names.add(keyOf(event[1]));
        }
        for (const { name } of [...this.#progress.pending.values()]) this.#appendLost(name);
        if (this.#progress.isEmpty) this.#append(ORDER, lineOf(ORDER));
    }

    // Takes note of a value that newValue may have given, so that it is not given again.
    #noteValue([word, , more]) {
        const value = word === "start" ? more : word === "begin" && more[0] === "w" ? more[2] : null;
        const found = typeof value === "string" ? NUMBERED.exec(value) : null;
        if (found) this.#counts.set(found[1], Math.max(Number(found[2]), this.#counts.get(found[1]) ?? 0));
    }

    #appendLost(name) {
        const event = ["lost", name];
        this.#append(event, lineOf(event));
    }

    #append(event, line) {
        const fault = this.#progress.faultOf(event);
        if (fault) throw new Error(fault);
        this.#file.append(line);
        this.#progress.take(event);
    }

    #checkUsable() {
        if (!this.#isOpen) throw new Error(`the recorder of ${this.path} is closed`);
    }
}

if (Symbol.dispose) Recorder.prototype[Symbol.dispose] = Recorder.prototype.close;
