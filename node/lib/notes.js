// Notes on calls: what a log has besides the events, so that a call is found again in the log of a server. Nobody judges them.

const MOST_DEPTH = 50;
const LARGEST = 1e300;

/** An event with a note, unless that is undefined or null. Throws where the note is no JSON, or one that a log can't have. */
export function noted(event, note) {
    if (note === undefined || note === null) return event;
    checkNote(note, MOST_DEPTH);
    return [...event, note];
}

/** The note that a function gives, and any other note as it is. */
export const given = (note) => (typeof note === "function" ? note() : note);

function checkNote(note, room) {
    if (note === null || ["boolean", "string"].includes(typeof note)) return;
    if (["number", "bigint"].includes(typeof note)) {
        if (note >= -LARGEST && note <= LARGEST) return;
        throw new RangeError("a number in a note is from -10^300 to 10^300: write another as a text");
    }
    if (!isPlain(note)) throw new TypeError(`a note is a value of JSON, and not of ${kindOf(note)}: write it as a text`);
    if (room === 0) throw new RangeError(`lists in a note are at most ${MOST_DEPTH} deep`);
    for (const part of Object.values(note)) checkNote(part, room - 1);
}

function isPlain(note) {
    if (Array.isArray(note)) return true;
    if (typeof note !== "object" || note === null) return false;
    const above = Object.getPrototypeOf(note);
    return above === null || above === Object.prototype;
}

const kindOf = (note) => (typeof note === "object" ? (note.constructor?.name ?? "an object") : typeof note);
