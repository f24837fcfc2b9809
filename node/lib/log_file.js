// A log as a file that is appended to: one recorder at a time, one line a write, and nothing torn that can be helped.

import fs from "node:fs";

import { LockFile } from "./lock_file.js";
import { LogReader } from "./log_reader.js";

const CHUNK = 1 << 20;
const { O_APPEND, O_CREAT, O_RDWR } = fs.constants;

/** An open log, which no other recorder of this package may open meanwhile. */
export class LogFile {
    constructor(path) {
        this.path = path;
        this.size = 0;
        this.isTorn = false;
        this.lock = new LockFile(path);
        try {
            this.file = fs.openSync(path, O_RDWR | O_APPEND | O_CREAT, 0o666);
            if (!fs.fstatSync(this.file).isFile()) throw new TypeError(`a log is an ordinary file, which ${path} is not`);
        } catch (error) {
            if (this.file !== undefined) fs.closeSync(this.file);
            this.lock.release();
            throw error;
        }
    }

    /** The events that the file has, with the numbers of their lines. After them a torn end is cut. A bad line changes nothing. */
    *events() {
        const reader = new LogReader(chunksOf(this.file), this.path);
        yield* reader;
        this.size = reader.size;
        this.isTorn = reader.isTorn;
        this.#cut();
        if (reader.lacksFeed) this.append(Buffer.from("\n"));
    }

    /** Writes a line. Where that throws, what was written of the line is cut, at the latest before the next one. */
    append(line) {
        this.#cut();
        this.isTorn = true;
        try {
            for (let written = 0; written < line.length; ) written += fs.writeSync(this.file, line, written);
        } catch (error) {
            try {
                this.#cut();
            } catch {
                // the next one tries again
            }
            throw error;
        }
        this.size += line.length;
        this.isTorn = false;
    }

    /** Cuts what stands after the last whole line. */
    #cut() {
        if (this.isTorn) fs.ftruncateSync(this.file, this.size);
        this.isTorn = false;
    }

    /** Closes the file, which another recorder may then open. */
    close() {
        try {
            this.#cut();
        } finally {
            fs.closeSync(this.file);
            this.lock.release();
        }
    }
}

/** The bytes of an open file, from its start. */
export function* chunksOf(file) {
    const chunk = Buffer.allocUnsafe(CHUNK);
    for (let from = 0; ; ) {
        const count = fs.readSync(file, chunk, 0, CHUNK, from);
        if (count === 0) return;
        yield chunk.subarray(0, count);
        from += count;
    }
}
