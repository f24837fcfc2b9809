// Clients, which make calls of a store and have them recorded.

import { Call, Rules, always, isDone, isPromise } from "./calls.js";
import { checkName } from "./events.js";

/**
 * A client of a recorder, which makes one call at a time. Each method records the begin, makes the call, records how it ended, and returns
 * what the call returned. Where the call gives a promise, it ends when that is settled, and the method gives a promise of the answer.
 */
export class Client {
    #recorder;
    #rules;
    #over = "";

    constructor(recorder, name, rules) {
        checkName(name);
        if (!(rules instanceof Rules)) throw new TypeError("a client is made by a recorder's client");
        this.name = name;
        this.#recorder = recorder;
        this.#rules = rules;
    }

    /** A value that no client of the run was given before, "alice.17" for alice: also after the log was opened again. */
    newValue() {
        return this.#recorder.newValue(this.name);
    }

    beginWrite(key, value, { note } = {}) {
        return this.#begin(["w", key, value], note);
    }

    beginRead(key, { note } = {}) {
        return this.#begin(["r", key], note);
    }

    beginDelete(key, { note } = {}) {
        return this.#begin(["d", key], note);
    }

    /** Writes a value, which should be new in the run, by this call of the store. */
    write(key, value, call, options = {}) {
        return made(this.beginWrite(key, value, options), call, (pending, answer) => pending.settle(answer));
    }

    /** Writes a value by a call that writes only if the key holds what it expects. `done` says of its answer whether it wrote. */
    compareAndSet(key, value, call, { done = isDone, note } = {}) {
        return made(this.beginWrite(key, value, { note }), call, (pending, answer) => pending.settle(answer, done));
    }

    /** Reads by this call, which gives the value, or null or undefined where the key holds nothing. */
    read(key, call, options = {}) {
        return made(this.beginRead(key, options), call, (pending, answer) => pending.end(answer));
    }

    /** Deletes by this call. Where `found` is false of its answer, the key held nothing and nothing was changed on any replica. */
    delete(key, call, { found = always, note } = {}) {
        return made(this.beginDelete(key, { note }), call, (pending, answer) => pending.settle(answer, found));
    }

    /**
     * Writes by calls that are tried up to so many times, each with a new value. A try that threw is lost, and the next one is a write of
     * its own. An error that means that nothing took effect is thrown at once, and so is that of the last try. `pause` is how many
     * milliseconds come before the next try, or a function of the number of tries so far.
     */
    async retry(key, call, { makeValue = () => this.newValue(), tries = 3, pause = 0, note } = {}) {
        if (!Number.isInteger(tries) || tries < 1) throw new RangeError(`a write is tried once at least, not ${tries} times`);
        for (let number = 1; ; number++) {
            const value = makeValue();
            const pending = this.beginWrite(key, value, { note });
            let answer;
            try {
                answer = await call(value);
            } catch (error) {
                pending.endBy(error);
                if (pending.outcome !== "lost" || number === tries) throw error;
                await waited(typeof pause === "function" ? pause(number) : pause);
                continue;
            }
            pending.settle(answer);
            return answer;
        }
    }

    /**
     * The client that goes on over a new connection, with a name that no client of the log has: "alice#2" for alice. It is for a store that
     * promises its sessions per connection. A call of this client that is pending is recorded as lost, and afterwards it records nothing.
     */
    reconnected() {
        const successor = new Client(this.#recorder, this.#recorder.newName(this.name), this.#rules);
        this.leave(`it goes on as ${JSON.stringify(successor.name)}`);
        return successor;
    }

    /** Records a call that is pending as lost. Afterwards the client records nothing. */
    leave(why = "it was left") {
        this.#over ||= why;
        this.#recorder.pendingCall(this.name)?.lost();
    }

    #begin(event, note) {
        if (this.#over) throw new Error(`the client ${String(this.name)} is over: ${this.#over}`);
        return new Call(this.#recorder, this.name, event, this.#rules, note);
    }
}

/** Makes a call that has begun, and has it ended by its answer or its error. */
function made(pending, call, ended) {
    const end = (answer) => {
        ended(pending, answer);
        return answer;
    };
    const endBy = (error) => {
        pending.endBy(error);
        throw error;
    };
    let answer;
    try {
        answer = call();
    } catch (error) {
        endBy(error);
    }
    return isPromise(answer) ? Promise.resolve(answer).then(end, endBy) : end(answer);
}

const waited = (milliseconds) => new Promise((resolve) => setTimeout(resolve, milliseconds));
