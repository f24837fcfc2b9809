#!/usr/bin/env node
// The command of the package. What it can't help ends with the status of a fault, since 1 says that an input is refused.

import { FAULT, run } from "../lib/command.js";

try {
    process.exitCode = run(process.argv.slice(2));
} catch (error) {
    console.error(error);
    process.exitCode = FAULT;
}
