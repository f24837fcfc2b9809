// Reads a log line by line: gives each event with the number of its line, and keeps none.

import { MOST_LINE, checkEvent } from "./events.js";
import { decode, encode } from "./json.js";

const FEED = 10;
const BLANKS = new Set([9, 10, 13, 32]);
const UTF8 = new TextDecoder("utf-8", { fatal: true, ignoreBOM: true });

/** A line of a log that is no event, or that may not stand where it does: its number, from 1, and what is wrong with it. */
export class LogError extends Error {
    constructor(line, what, path) {
        super(path === undefined ? `line ${line}: ${what}` : `${path}, line ${line}: ${what}`);
        this.name = "LogError";
        this.line = line;
        this.what = what;
        this.path = path;
    }
}

/**
 * The events of a log. Blank lines are passed over, and a torn last line ends the log. A bad line throws LogError. After the last event
 * `size` is how many bytes the log has without a torn end, `isTorn` whether there was one, and `lacksFeed` whether its last line is whole
 * but for its line feed.
 */
export class LogReader {
    constructor(chunks, path) {
        this.chunks = chunks;
        this.path = path;
        this.size = 0;
        this.isTorn = this.lacksFeed = false;
    }

    *[Symbol.iterator]() {
        let number = 0;
        for (const line of linesOf(this.chunks, () => this.#refuse(number + 1, `has more than ${MOST_LINE} bytes`))) {
            number += 1;
            const isWhole = line.at(-1) === FEED;
            this.isTorn = !isWhole && isTorn(line);
            if (this.isTorn) return;
            if (!line.every((byte) => BLANKS.has(byte))) yield [number, this.#eventOf(number, line)];
            this.size += line.length;
            this.lacksFeed = !isWhole;
        }
    }

    #eventOf(number, line) {
        let event;
        try {
            event = jsonOf(line);
        } catch (error) {
            this.#refuse(number, `is no JSON in UTF-8: ${error.message}`);
        }
        try {
            checkEvent(event);
        } catch (error) {
            this.#refuse(number, error.message);
        }
        return event;
    }

    #refuse(number, what) {
        throw new LogError(number, what, this.path);
    }
}

/** What a line writes in JSON. Throws where it is no JSON, or no UTF-8, or escapes half of a surrogate pair. */
function jsonOf(line) {
    const found = decode(UTF8.decode(line));
    if (line.includes("\\u")) encode(found);
    return found;
}

/** Whether this is a last line, without a line feed, that is no JSON. */
export function isTorn(line) {
    if (line.every((byte) => BLANKS.has(byte))) return false;
    try {
        jsonOf(line);
        return false;
    } catch {
        return true;
    }
}

/** The lines of some chunks of bytes, each with its line feed where it has one. Calls `refuse` at a line that is too long. */
function* linesOf(chunks, refuse) {
    let parts = [];
    let length = 0;
    for (const chunk of chunks) {
        for (let from = 0; from < chunk.length; ) {
            const feed = chunk.indexOf(FEED, from);
            const to = feed < 0 ? chunk.length : feed + 1;
            parts.push(chunk.subarray(from, to));
            length += to - from;
            from = to;
            if (length - (feed < 0 ? 0 : 1) > MOST_LINE) refuse();
            if (feed < 0) continue;
            yield parts.length === 1 ? parts[0] : Buffer.concat(parts);
            parts = [];
            length = 0;
        }
        parts = parts.map((part) => Buffer.from(part)); // the chunk may be filled anew
    }
    if (length) yield Buffer.concat(parts);
}
