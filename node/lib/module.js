// The module of the proved library, and the calls of it.

import fs from "node:fs";

import { judgeOf } from "./judge_module.mjs";

const MODULE = new URL("causal_judge.wasm", import.meta.url);

/** Has the module that the package carries answer. It is compiled at the first call, in some hundredths of a second. */
export class ModuleBackend {
    #judge = judgeOf(new WebAssembly.Module(fs.readFileSync(MODULE)));

    ask(call, input) {
        return this.#judge.call(call, input);
    }
}
