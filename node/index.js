// Records runs of replicated stores as logs of events, and judges them by causal consistency.

export { assertMet } from "./lib/assert_met.js";
export { Call } from "./lib/calls.js";
export { Client } from "./lib/clients.js";
export { Line, Refused, Verdict, explain, judge } from "./lib/judge.js";
export { LogError } from "./lib/log_reader.js";
export { LogInUse } from "./lib/lock_file.js";
export { Recorder } from "./lib/recorder.js";
