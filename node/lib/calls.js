// One call of a client, from its begin to its end, and the rules by which an error or an answer says how it ended.

import { checkEvent, lineOf } from "./events.js";
import { shown } from "./json.js";
import { given, noted } from "./notes.js";

export const isPromise = (it) => typeof it?.then === "function";

/** What somebody gave, where that is no promise: a promise is true, whatever it comes to. */
function atOnce(it, who) {
    if (isPromise(it)) throw new TypeError(`${who} gave a promise, and no answer yet: await it`);
    return it;
}

/** Takes every answer for one of a call that took effect. */
export const always = () => true;

/** Takes an answer to a compare-and-set by its truth. Throws where it is none, as of a function that returns nothing. */
export function isDone(answer) {
    if (answer === undefined || answer === null)
        throw new TypeError(`the call returned ${answer}: have it return whether it wrote, or say by done what its answer means`);
    return Boolean(answer);
}

/** What the log says of what a client's calls give: which errors are certain, and which value stands for an answer. */
export class Rules {
    constructor({ fails = [], answers = (it) => it } = {}) {
        const classes = [fails].flat();
        this.isClasses = Array.isArray(fails) || isErrorClass(fails);
        if (this.isClasses ? !classes.every(isErrorClass) : typeof fails !== "function")
            throw new TypeError(`fails is a class of errors, an array of such, or a function of an error, not ${shown(fails)}`);
        if (typeof answers !== "function") throw new TypeError(`answers is a function of what a read returned, not ${shown(answers)}`);
        this.fails = fails;
        this.answers = answers;
        this.classes = classes;
    }

    /** These rules, but for those that are given. */
    but({ fails = this.fails, answers = this.answers } = {}) {
        return new Rules({ fails, answers });
    }

    /** Whether an error means that the call had no effect for certain. */
    hasFailed(error) {
        return this.isClasses ? this.classes.some((one) => error instanceof one) : Boolean(atOnce(this.fails(error), "fails"));
    }
}

const isErrorClass = (it) => typeof it === "function" && (it === Error || it.prototype instanceof Error);

/**
 * A call that has begun. It ends once: by `end`, `fail` or `lost`. Where the end can't be written, that throws, and the call is over all
 * the same: the client's next begin first records it as lost.
 */
export class Call {
    #recorder;
    #rules;
    #isRead;
    #note;

    constructor(recorder, name, event, rules, note) {
        this.name = name;
        this.outcome = null;
        this.#recorder = recorder;
        this.#rules = rules;
        this.#isRead = event[0] === "r";
        this.#note = typeof note === "function" ? note : undefined;
        recorder.begin(this, noted(["begin", name, event], typeof note === "function" ? undefined : note));
    }

    /** The answer came. A read ends with what it found, null or undefined for nothing; a write or a delete ends with nothing. */
    end(...words) {
        const [found, options] = this.#isRead ? words : [undefined, words[0]];
        if (words.length > (this.#isRead ? 2 : 1) || (this.#isRead && !words.length) || !isOptions(options))
            throw new TypeError(this.#isRead ? "a read ends with one value, or null" : "a write or a delete ends without a value");
        let event, line;
        try {
            event = ["end", this.name, this.#isRead ? this.#valueOf(found) : "ok"];
            checkEvent(event);
            line = lineOf(event);
        } catch (error) {
            this.#endUnanswered("lost", options?.note, true);
            throw error;
        }
        this.#finish("end", event, line, options?.note);
    }

    /** The call had no effect, for certain. */
    fail(options) {
        this.#endUnanswered("fail", options?.note);
    }

    /** No answer came: the call may take effect later, or never. */
    lost(options) {
        this.#endUnanswered("lost", options?.note);
    }

    /**
     * Ends a write or a delete by its answer, of which `done` says whether it took effect: true is an end, false a fail, since nothing was
     * changed on any replica, and null or undefined is lost, since nobody knows. An error of `done` makes it lost too, and is thrown on.
     */
    settle(answer, done = always) {
        let said;
        try {
            said = atOnce(done(atOnce(answer, "the call")), "done");
        } catch (error) {
            this.#endUnanswered("lost", undefined, true);
            throw error;
        }
        if (said === undefined || said === null) this.lost();
        else if (said) this.end();
        else this.fail();
    }

    /** Ends the call by an error of the store: `fail` where the client's rule says so, else `lost`. Nothing, where it has ended. */
    endBy(error) {
        if (this.#recorder.pendingCall(this.name) !== this) return;
        let hasFailed = false;
        try {
            hasFailed = this.#rules.hasFailed(error);
        } finally {
            this.#endUnanswered(hasFailed ? "fail" : "lost", undefined, true);
        }
    }

    #endUnanswered(outcome, note, hasThrown = false) {
        const event = [outcome, this.name];
        this.#finish(outcome, event, lineOf(event), note, hasThrown);
    }

    // Records how the call ended: without the note where that throws, which is thrown on unless the call itself threw.
    #finish(outcome, event, line, note, hasThrown = false) {
        try {
            const said = noted(event, given(note === undefined ? this.#note : note));
            if (said !== event) line = lineOf(said);
            if (said !== event) event = said;
        } catch (error) {
            if (!hasThrown) throw error;
        } finally {
            this.#recorder.finish(this, event, line);
            this.outcome = outcome;
        }
    }

    #valueOf(answer) {
        const found = atOnce(answer, "the call");
        return found === null || found === undefined ? null : (atOnce(this.#rules.answers(found), "answers") ?? null);
    }
}

const isOptions = (it) => it === undefined || (typeof it === "object" && it !== null && Object.keys(it).every((name) => name === "note"));
