// The module causal_judge.wasm as calls on texts. Runs in browsers, in their workers, and in Node 20 and later.
//
//     const judge = await instantiate(bytes);
//     judge.call('log_judge', log)   // {status: 0, text: 'cc yes\ncm yes\nccv yes\n'}
//
// README.md says which calls there are and what a status means.

export const ANSWERED = 0, REFUSED = 1, TOO_SMALL = 3, NO_MEMORY = 4;

// An instance whose memory grew beyond this is not kept for the next call, so that its memory can be freed.
const KEPT_BYTES = 256 * 2 ** 20;

// The room that an answer gets at first. A call whose answer is longer is made again, with as much as it needs.
const ROOM = 4 * 2 ** 20;
const LINES_ROOM = 2 ** 16;
const HAS_LINES = /^(long_|log_)?(judge|check|refute)$/;
const HAS_RUN = /(page|events)$/;

const roomFor = (name, input) => HAS_LINES.test(name) ? LINES_ROOM : HAS_RUN.test(name) ? ROOM + input.length : ROOM;

// A call that ended in a trap. Its instance is not used again.
export class Trap extends Error {}

class Judge {
  #module;
  #calls;
  #exports;
  #limit;
  #memory = {bytes: 0, taken: 0};

  constructor(module, limit) {
    const names = WebAssembly.Module.exports(module).map(it => it.name);
    this.#module = module;
    this.#calls = new Set(names.filter(it => it.startsWith('causal_judge_')).map(it => it.slice('causal_judge_'.length)));
    this.#limit = limit;
  }

  // The names of all calls.
  get calls() {
    return [...this.#calls];
  }

  // The bytes of the memory after the last call, and those of them that were taken then: 0 where the call gave all back.
  get memory() {
    return this.#memory;
  }

  // Makes a call on an input, a text or its bytes in UTF-8, and gives its status, and its text with status 0 or 1.
  call(name, input) {
    const bytes = typeof input === 'string' ? new TextEncoder().encode(input) : input;
    if (!(bytes instanceof Uint8Array)) throw new TypeError('an input is a text or a Uint8Array');
    if (!this.#calls.has(name)) throw new TypeError(`the module has no call ${name}`);
    try {
      return this.#made(name, bytes);
    } catch (error) {
      this.#exports = undefined;
      throw new Trap(`the call ${name} ended without an answer: ${error.message}`, {cause: error});
    }
  }

  #made(name, bytes) {
    this.#exports ??= this.#instance();
    const it = this.#exports, taken = [];
    const take = size => {
      const at = it.judge_take(BigInt(size));
      if (at) taken.push(at);
      return at;
    };
    const answer = this.#asked(it, name, bytes, take) ?? {status: NO_MEMORY, text: ''};
    for (const at of taken) it.judge_give(at);
    this.#memory = {bytes: it.memory.buffer.byteLength, taken: Number(it.judge_live())};
    if (this.#memory.bytes > KEPT_BYTES) this.#exports = undefined;
    return answer;
  }

  // The answer, or undefined where there was no memory for the input or the answer. Memory may grow in each call of the instance, so that
  // its buffer is read anew after each.
  #asked(it, name, bytes, take) {
    const at = take(bytes.length), needed = at && take(8);
    if (!needed) return undefined;
    new Uint8Array(it.memory.buffer).set(bytes, Number(at));
    for (let room = roomFor(name, bytes); ;) {
      const to = take(room);
      if (!to) return undefined;
      const status = it[`causal_judge_${name}`](at, BigInt(bytes.length), to, BigInt(room), needed) & 255;
      const size = Number(new DataView(it.memory.buffer).getBigUint64(Number(needed), true));
      if (status === NO_MEMORY) return {status, text: ''};
      if (status !== TOO_SMALL) {
        const text = new TextDecoder('utf-8', {ignoreBOM: true}).decode(new Uint8Array(it.memory.buffer, Number(to), size));
        return {status, text};
      }
      room = size;
    }
  }

  #instance() {
    const {exports} = new WebAssembly.Instance(this.#module);
    if (this.#limit !== undefined) exports.judge_limit(BigInt(this.#limit));
    return exports;
  }
}

// The judge of a module: its bytes, or what WebAssembly.compile made of them. With a limit its memory gets no more than so many bytes.
export async function instantiate(given, options) {
  return judgeOf(given instanceof WebAssembly.Module ? given : await WebAssembly.compile(given), options);
}

// The judge of a module that is compiled, at once.
export const judgeOf = (module, {limit} = {}) => new Judge(module, limit);
