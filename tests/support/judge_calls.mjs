// Tests judge.mjs over a small module that answers, grows, is short of room and traps, for wasm_module.py: node judge_calls.mjs JUDGE.mjs
// MODULE.wasm

import assert from 'node:assert';
import fs from 'node:fs';
import path from 'node:path';
import {pathToFileURL} from 'node:url';

const [, , script, file] = process.argv;
const {instantiate, Trap} = await import(pathToFileURL(path.resolve(script)));
const bytes = fs.readFileSync(file);
const judge = await instantiate(bytes);

assert.deepStrictEqual(judge.calls.sort(), ['count', 'echo', 'full', 'long_events', 'trap']);
// Texts and bytes, with what is beyond ASCII, zero bytes and a byte order mark.
for (const text of ['', 'a', 'caf\u00e9 \u{1f600} \0 \ufeff', '\ufeffx']) {
  assert.deepStrictEqual(judge.call('echo', text), {status: 0, text});
  assert.deepStrictEqual(judge.call('echo', new TextEncoder().encode(text)), {status: 0, text});
}
// An answer that is longer than the room for it: the call is made once more.
assert.strictEqual(judge.call('long_events', 'a').text, 'x'.repeat(5_000_000));
// No memory: the status alone.
assert.deepStrictEqual(judge.call('full', 'a'), {status: 4, text: ''});
// What is no input and no call.
for (const input of [undefined, null, 1, [1], new ArrayBuffer(1)]) assert.throws(() => judge.call('echo', input), TypeError);
for (const name of ['', 'none', 'causal_judge_echo', '__proto__', undefined]) assert.throws(() => judge.call(name, ''), TypeError);
// One instance for all calls, until one of them traps: it is not used again.
const other = await instantiate(await WebAssembly.compile(bytes));
assert.deepStrictEqual(['1', '2', '3'], [1, 2, 3].map(() => other.call('count', '').text));
assert.throws(() => other.call('trap', ''), Trap);
assert.strictEqual(other.call('count', '').text, '1');
// Where there is no memory for an input, nothing is asked.
const small = await instantiate(bytes, {limit: 0});
assert.deepStrictEqual(small.call('echo', 'a'), {status: 4, text: ''});
console.log('done');
