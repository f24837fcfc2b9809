// Answers calls of the WebAssembly module, for wasm_module.py: node module_answers.mjs JUDGE.mjs MODULE.wasm
//
// On standard input each request is a line of JSON and as many bytes as it says: `call` and its input; `limit`, the bytes that the memory
// of a new instance may have, 0 for no limit; or `calls`. Each answer is a line of JSON, and as many bytes as it says.

import fs from 'node:fs';
import path from 'node:path';
import {pathToFileURL} from 'node:url';

const [, , script, file] = process.argv;
const {instantiate} = await import(pathToFileURL(path.resolve(script)));
const module = await WebAssembly.compile(fs.readFileSync(file));
let judge = await instantiate(module);

let held = Buffer.alloc(0);
function more() {
  const chunk = Buffer.alloc(1 << 20);
  for (;;) {
    try {
      const count = fs.readSync(0, chunk, 0, chunk.length, null);
      held = Buffer.concat([held, chunk.subarray(0, count)]);
      return count > 0;
    } catch (error) {
      if (error.code !== 'EAGAIN') throw error;
    }
  }
}
function line() {
  for (;;) {
    const end = held.indexOf(10);
    if (end >= 0) {
      const text = held.subarray(0, end).toString();
      held = held.subarray(end + 1);
      return text;
    }
    if (!more()) return undefined;
  }
}
function bytes(count) {
  if (held.length < count) {
    const whole = Buffer.alloc(count);
    let at = held.copy(whole);
    while (at < count) at += fs.readSync(0, whole, at, count - at, null);
    held = Buffer.alloc(0);
    return whole;
  }
  const some = held.subarray(0, count);
  held = held.subarray(count);
  return some;
}
function put(data) {
  for (let at = 0; at < data.length;) {
    try {
      at += fs.writeSync(1, data, at);
    } catch (error) {
      if (error.code !== 'EAGAIN') throw error;
    }
  }
}

for (let text = line(); text !== undefined; text = line()) {
  const asked = JSON.parse(text), data = bytes(asked.bytes);
  const head = {bytes: 0};
  let answer = Buffer.alloc(0);
  if (asked.limit !== undefined) judge = await instantiate(module, asked.limit > 0 ? {limit: asked.limit} : {});
  if (asked.calls) head.calls = judge.calls.sort();
  if (asked.call) {
    const said = judge.call(asked.call, data);
    answer = Buffer.from(said.text);
    Object.assign(head, {status: said.status, taken: judge.memory.taken, memory: judge.memory.bytes, bytes: answer.length});
  }
  put(Buffer.from(`${JSON.stringify(head)}\n`));
  put(answer);
}
