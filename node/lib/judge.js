// What is said of a run: the three lines of a judgement, and the reasons of an explanation.

import { ANSWERED, REFUSED, ask } from "./backend.js";
import { formOf } from "./form.js";

export const CRITERIA = ["cc", "cm", "ccv"];
export const FORMS = { words: "_words", json: "", picture: "_picture", page: "_page" };
export const PREFIXES = { log: "log_", long: "long_", history: "" };

/** The judge refuses an input: the message says what is wrong with it, and where. */
export class Refused extends Error {
    constructor(text) {
        super(text.trimEnd());
        this.name = "Refused";
    }
}

/** What is said of one criterion: "yes", "no" or "unknown"; of a no the kind of the pattern that shows it. */
export class Line {
    constructor(text) {
        const [criterion, answer, ...rest] = text.split(" ");
        Object.assign(this, { criterion, answer, kind: answer === "no" ? rest.join(" ") : null, text });
        Object.freeze(this);
    }

    toString() {
        return this.text;
    }
}

/** The lines about a run, and the explanation, which is asked for when it is read first. */
export class Verdict {
    #input;
    #form;
    #explanation = null;

    constructor(text, input, form) {
        this.#input = input;
        this.#form = form;
        this.lines = Object.freeze(
            text
                .trimEnd()
                .split("\n")
                .map((line) => new Line(line)),
        );
        for (const line of this.lines) this[line.criterion] = line;
        if (String(this.lines.map((line) => line.criterion)) !== String(CRITERIA))
            throw new Error(`the judge says nothing that is known: ${text}`);
    }

    /** What `explain` says of the run in words. */
    get explanation() {
        this.#explanation ??= answered(this.#form, "explain_words", this.#input);
        return this.#explanation;
    }

    /** Whether these criteria are met, or all three where none is named. An unknown is not met. */
    meets(...criteria) {
        return this.unmet(...criteria).length === 0;
    }

    /** The lines of these criteria, or of all three where none is named, that are no yes. */
    unmet(...criteria) {
        const wanted = checkedCriteria(criteria);
        return this.lines.filter((line) => wanted.includes(line.criterion) && line.answer !== "yes");
    }

    toString() {
        return this.lines.join("\n");
    }
}

/** These criteria, or all three where none is named. Throws where one is none. */
export function checkedCriteria(criteria) {
    for (const criterion of criteria)
        if (!CRITERIA.includes(criterion)) throw new RangeError(`there is no criterion ${criterion}: there are ${CRITERIA.join(", ")}`);
    return criteria.length ? criteria : CRITERIA;
}

/** Judges a log of events or a history: a text, or its bytes. Throws Refused where it is neither, and RangeError where memory runs out. */
export function judge(text) {
    const input = bytesOf(text);
    return judgeAs(formOf(input), input);
}

/** Judges bytes of this form. */
export const judgeAs = (form, input) => new Verdict(answered(form, "judge", input), input, form);

/** Says why each criterion is met or not: in words, as JSON, as a picture in SVG or as a page in HTML. It throws what `judge` throws. */
export function explain(text, form = "words") {
    const input = bytesOf(text);
    return explainAs(formOf(input), input, form);
}

/** Explains bytes of this form. */
export function explainAs(form, input, as) {
    if (!Object.hasOwn(FORMS, as)) throw new RangeError(`there is no form ${as}: there are ${Object.keys(FORMS).join(", ")}`);
    return answered(form, `explain${FORMS[as]}`, input);
}

/** What the judge answers to a question about bytes of this form. */
function answered(form, question, input) {
    const { status, text } = ask(PREFIXES[form] + question, input);
    if (status === REFUSED) throw new Refused(text);
    if (status !== ANSWERED) throw new RangeError("no memory: the run is too long for the judge in Node");
    return text;
}

/** The bytes of a text. Throws where it has half of a surrogate pair. */
function bytesOf(text) {
    if (text instanceof Uint8Array) return text;
    if (typeof text !== "string") throw new TypeError(`a log or a history is a text or its bytes, not ${typeof text}`);
    if (!text.isWellFormed()) throw new RangeError("a text has half of a surrogate pair, which no UTF-8 has");
    return Buffer.from(text, "utf8");
}
