// An assertion for tests: a log meets what its store promises.

import { AssertionError } from "node:assert";
import fs from "node:fs";
import path from "node:path";
import { fileURLToPath } from "node:url";

import { Progress } from "./events.js";
import { checkedCriteria, explainAs, judgeAs } from "./judge.js";
import { LogReader } from "./log_reader.js";
import { Recorder } from "./recorder.js";

/**
 * Has a log judged, one of a path or of a recorder, and throws an AssertionError with the explanation where one of these criteria is no
 * yes.
 *
 * Where no criterion is named, all three have to be met. Where fewer reads than `atLeastReads` were answered, it throws an AssertionError
 * too: a run that reads nothing meets them all. Before it throws, it writes the page of the explanation to `page`, where that is given.
 */
export function assertMet(log, criteria = [], { atLeastReads = 1, page } = {}) {
    if (!Array.isArray(criteria)) throw new TypeError('criteria are an array, as ["cc"]');
    checkedCriteria(criteria);
    if (!Number.isSafeInteger(atLeastReads) || atLeastReads < 0)
        throw new RangeError(`atLeastReads is a whole number from 0, not ${atLeastReads}`);
    const place = placeOf(log);
    const bytes = fs.readFileSync(place);
    const verdict = judgeAs("log", bytes);
    const lack = lackOf(verdict, criteria, place) || lackOfReads(verdict, bytes, atLeastReads, place);
    if (!lack) return verdict;
    const message = page === undefined ? lack : `${lack}\n${savedPage(bytes, placeOf(page))}`;
    const sides = { actual: String(verdict), expected: expectedOf(criteria) };
    throw new AssertionError({ message, ...sides, operator: "assertMet", stackStartFn: assertMet });
}

const placeOf = (it) => (it instanceof Recorder ? it.path : it instanceof URL ? fileURLToPath(it) : String(it));
const expectedOf = (criteria) =>
    checkedCriteria(criteria)
        .map((criterion) => `${criterion} yes`)
        .join("\n");

/** Says what a log does not meet, after its explanation. An empty text where it meets all of these criteria. */
function lackOf(verdict, criteria, place) {
    const unmet = verdict.unmet(...criteria);
    if (!unmet.length) return "";
    const named = (answer) => unmet.filter((line) => line.answer === answer).map((line) => line.criterion);
    const said = (words, criteria) => (criteria.length ? [`${words} ${criteria.join(", ")}`] : []);
    const lacks = [...said("does not meet", named("no")), ...said("is not known to meet", named("unknown"))];
    return `${verdict.explanation}${place} ${lacks.join(" and ")}.`;
}

/** Says how many reads of a run were answered, where these are too few; else an empty text. */
function lackOfReads(verdict, bytes, atLeast, place) {
    const count = answeredReads(bytes, atLeast);
    if (count >= atLeast) return "";
    const said = `${count || "no"} ${count < 2 ? "read was" : "reads were"} answered`;
    return `${verdict}\n${place}: ${said}, and atLeastReads is ${atLeast}: where little is read, a yes says little of the store.`;
}

/** How many reads of a log that was judged were answered, also by nothing. It counts no further than up to so many. */
function answeredReads(bytes, enough) {
    const progress = new Progress();
    let found = 0;
    for (const [, event] of new LogReader([bytes])) {
        if (found >= enough) break;
        found += Number(event[0] === "end" && progress.wordOf(event[1]) === "r");
        progress.take(event);
    }
    return found;
}

/** Writes the page of a run, and says where it is; or says why there is none. A page that was there before is gone in any case. */
function savedPage(bytes, place) {
    const part = `${place}.part`;
    try {
        fs.rmSync(place, { force: true });
        fs.mkdirSync(path.dirname(place), { recursive: true });
        fs.writeFileSync(part, explainAs("log", bytes, "page"));
        fs.renameSync(part, place);
    } catch (error) {
        fs.rmSync(part, { force: true });
        return `There is no page ${place} of it: ${error.message}`;
    }
    return `The page ${place} shows it.`;
}
