// JSON with whole numbers of 64 bits: JavaScript's own would round them.

/** A number that is no whole one as it is written, as 1.0 and -0. */
export class Fraction {
    constructor(text) {
        this.text = text;
    }
}

const NEEDS_CARE = /[0-9]{16}|[0-9][.eE]|-0/;
const TOKENS = /"(?:[^"\\]|\\.)*"|-?[0-9][0-9.eE+-]*/g;
const WHOLE = /^(?:0|-?[1-9][0-9]*)$/;
const SHOWN = 80;

/** What a text writes in JSON: a whole number beyond 2^53 - 1 is a BigInt, and any other number that is no whole one a Fraction. */
export function decode(text) {
    if (!NEEDS_CARE.test(text)) return JSON.parse(text);
    JSON.parse(text); // says what is no JSON
    const numbers = [];
    const held = text.replace(TOKENS, (token) => (token[0] === '"' ? token : numbered(token, numbers)));
    return JSON.parse(held, (_, value) => (typeof value === "number" ? numbers[value] : value));
}

/** Keeps the number of a token, and gives its place as a token. */
function numbered(token, numbers) {
    const value = WHOLE.test(token) ? BigInt(token) : new Fraction(token);
    const isSmall = typeof value === "bigint" && Number.isSafeInteger(Number(value));
    return String(numbers.push(isSmall ? Number(value) : value) - 1);
}

/** The JSON of a value, in which a BigInt is a whole number. Throws where a text has half of a surrogate pair. */
export function encode(value) {
    if (Array.isArray(value)) return `[${value.map(encode).join(",")}]`;
    if (typeof value === "bigint") return String(value);
    if (typeof value === "object" && value !== null)
        return `{${Object.entries(value)
            .map(([name, part]) => `${encode(name)}:${encode(part)}`)
            .join(",")}}`;
    if (typeof value === "string" && !value.isWellFormed())
        throw new RangeError("a text has half of a surrogate pair, which no UTF-8 has: write it in hexadecimal digits");
    return JSON.stringify(value);
}

/** A thing in a message, cut where it is long. */
export function shown(thing) {
    let text = String(thing);
    try {
        if (thing instanceof Fraction) text = thing.text;
        else if (typeof thing !== "function" && thing !== undefined) text = encode(thing);
    } catch {
        text = typeof thing;
    }
    return text.length <= SHOWN ? text : `${text.slice(0, SHOWN - 4)} ...`;
}
