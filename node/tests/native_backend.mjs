// For tests alone: has the program that CAUSAL_JUDGE names answer the calls of the library.

import { spawnSync } from "node:child_process";
import path from "node:path";
import { pathToFileURL } from "node:url";

const FORMS = { "": ["--json"], _words: [], _picture: ["--svg"], _page: ["--html"] };
const LENGTHS = { log_: ["--events"], long_: ["--long"], "": [] };

/** The words of the program for a call. */
function wordsOf(call) {
    if (call === "log_events") return ["events"];
    const [, prefix, command, form] = /^(log_|long_|)(judge|check|refute|explain)(_words|_picture|_page|)$/.exec(call);
    return [command, ...(command === "explain" ? FORMS[form] : []), ...LENGTHS[prefix]];
}

/** Of a history the library says a refusal in one line. */
const refusalOf = (call, said) => (call.startsWith("log_") ? said : said.subarray(0, said.indexOf(10) + 1));

export const backend = {
    ask(call, input) {
        const { status, stdout, stderr, error } = spawnSync(process.env.CAUSAL_JUDGE, wordsOf(call), { input, maxBuffer: 1 << 28 });
        if (error) throw error;
        return { status, text: (status === 1 ? refusalOf(call, stderr) : stdout).toString("utf8") };
    },
};

if (process.env.CAUSAL_JUDGE_BACKEND === "native") {
    const index = new URL(import.meta.resolve("causal-judge")).pathname;
    const { useBackend } = await import(pathToFileURL(path.join(path.dirname(index), "lib", "backend.js")));
    useBackend(backend);
}
