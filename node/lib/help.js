// What the command says of itself.

import fs from "node:fs";

const { version } = JSON.parse(fs.readFileSync(new URL("../package.json", import.meta.url), "utf8"));

export const VERSION_TEXT = `causal_judge ${version} (module in Node)\n`;

export const HELP = `Judges a recorded run of a replicated store by the criteria of causal consistency

Usage: causal_judge <COMMAND> [OPTIONS] [FILE]...

Commands:
  judge    Judges a log of events, or a history    [--expect LIST] [--long] [--events]
  explain  Shows why it meets each criterion or not    [--json | --svg | --html] [-o FILE] [--long] [--events]
  check    Checks a certificate of a history
  refute   Checks a pattern against a criterion    [--long]
  events   Writes the history of a log
  help     Prints this

FILE is what to read; '-' or none is standard input. Of a FILE, and of '-', the form is found: a log, a memory of any length, or a history
within the limits. Without it --events says that the input is a log, and --long that it is a memory of any length.

  --expect <LIST>  What is to be met: some of cc, cm and ccv, joined by commas. Sets the status
  -o <FILE>        Writes the answer to this file: the whole of it, or nothing

Status: 0 answered, whatever the verdict; 1 the input is refused; 2 wrong words; 3 reading or writing failed; 4 memory ran out.
With --expect: 0 each criterion is met, 5 one is not met, 6 of one nothing is known.

The words are those of the program causal_judge, which has more of them. A history that is refused has one line here, 'refused N', where the
program can say more.
`;
