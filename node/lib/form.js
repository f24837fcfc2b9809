// The form of an input, by the first text in it, after brackets and white space.

const LOOKED_AT = 4608;
const TEXTS = { start: "log", begin: "log", end: "log", fail: "log", lost: "log", order: "log", memory: "long" };

/** What an input holds: "log", a log of events; "long", a memory of any length; or "history", a history within the limits. */
export function formOf(bytes) {
    const text = Buffer.from(bytes.subarray(0, LOOKED_AT)).toString("latin1");
    const found = /^[[ \t\r\n]*"/.exec(text);
    return found ? formBy(text.slice(found[0].length)) : "history";
}

function formBy(text) {
    const known = Object.keys(TEXTS).find((word) => text.startsWith(`${word}"`));
    return known ? TEXTS[known] : "history";
}
