// What answers the calls of the library: the module of the proved library, once it is asked for.
//
// A backend has one function, `ask(call, input)`. The call is the name of a function of causal_judge.h without its `causal_judge_`, as
// "log_judge", and the input is bytes. It gives `status` and `text`: with status 0 the answer, with 1 a refusal, and with 4 an empty text,
// for want of memory.

import { ModuleBackend } from "./module.js";

let backend = null;

export const ANSWERED = 0;
export const REFUSED = 1;
export const NO_MEMORY = 4;

/** Has another backend answer from now on. For tests. */
export function useBackend(other) {
    backend = other;
}

/** Has a call answered. */
export function ask(call, input) {
    backend ??= new ModuleBackend();
    return backend.ask(call, input);
}
