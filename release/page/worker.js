// What the page's worker runs, after judge.mjs: it finds the form of an input, makes the calls, and says how far it is.
//
// The page posts {module}, {judge: ID, bytes} and {json: ID}. The worker posts, for an ID, {stage}, {verdict}, {page} or {words}, {json},
// {refused}, {memory} or {failed}, and {done}.

const LOG_WORDS = new Set(['start', 'begin', 'end', 'fail', 'lost', 'order']);
const FORMS = {history: '', long: 'long_', log: 'log_'};

// The form of an input by its first text after brackets and white space, as the program finds that of a file.
function formOf(bytes) {
  let at = 0;
  while (at < bytes.length && ' \t\r\n['.includes(String.fromCharCode(bytes[at]))) at++;
  if (bytes[at] !== 34) return 'history';
  const end = bytes.indexOf(34, at + 1);
  const word = end < 0 || end > at + 10 ? '' : new TextDecoder().decode(bytes.subarray(at + 1, end));
  return LOG_WORDS.has(word) ? 'log' : word === 'memory' ? 'long' : 'history';
}

function linesOf(bytes) {
  let count = 0;
  for (let at = bytes.indexOf(10); at >= 0; at = bytes.indexOf(10, at + 1)) count++;
  return count + (bytes.length && bytes[bytes.length - 1] !== 10 ? 1 : 0);
}

// ---- Where an input is at fault.

// Walks a JSON text. Gives the place where it stops being one, or -1, and calls `seen` with each value's path and place.
function walk(text, seen) {
  const white = /[ \t\r\n]*/y, number = /-?(?:0|[1-9]\d*)(?:\.\d+)?(?:[eE][+-]?\d+)?/y;
  const string = /"(?:[^"\\\u0000-\u001f]|\\(?:["\\/bfnrt]|u[0-9a-fA-F]{4}))*"/y;
  const word = /true|false|null/y, path = [];
  let at = 0;
  const past = pattern => {
    pattern.lastIndex = at;
    const found = pattern.test(text);
    if (found) at = pattern.lastIndex;
    return found;
  };
  const value = () => {
    past(white);
    seen(path, at);
    if (text[at] === '[') return list(']', () => value());
    if (text[at] === '{') return list('}', () => (past(white), past(string)) && (past(white), text[at] === ':') && (at++, value()));
    return past(string) || past(number) || past(word);
  };
  const list = (end, one) => {
    at++;
    past(white);
    if (text[at] === end) return at++, true;
    for (let index = 0; ; index++) {
      path.push(index);
      if (path.length > 500 || !one()) return false;
      path.pop();
      past(white);
      if (text[at] === end) return at++, true;
      if (text[at] !== ',') return false;
      at++;
      past(white);
    }
  };
  if (!value()) return at;
  past(white);
  return at < text.length ? at : -1;
}

const WORDS = {
  1: 'The text is no JSON.',
  2: 'The text is JSON, but no history: wanted is a list of the name of an object and of the sessions, as ["memory",[[["w",0,1]],[["r",0,1]]]].',
  3: 'No object has this name: wanted is "memory", "register", "counter", "set", "queue", "counters", "sets" or "queues".',
  4: 'is no operation of this object, or one that is written another way.',
  5: 'has a known return, after one in its session whose return is not known.',
  6: 'There are more than 16 sessions: of such histories only those of a "memory" are judged.',
  7: 'A session has more than 256 operations: of such histories only those of a "memory" are judged.',
  9: 'The input is too long.',
  29: 'What follows the sessions is no table of the values at the start.',
};

// The line of a text that a place is on, from 1, and the column, from 1.
function placeOf(text, at) {
  let line = 1, begin = 0;
  for (let end = text.indexOf('\n'); end >= 0 && end < at; end = text.indexOf('\n', end + 1)) {
    line++;
    begin = end + 1;
  }
  return {line, column: at - begin + 1};
}

const MOST_SHOWN = 400;

// Some lines around one, each with its number; long ones are cut around a column.
function linesAround(text, line, column = 1) {
  const shown = [];
  let begin = 0;
  for (let number = 1; begin <= text.length && number <= line + 1; number++) {
    const next = text.indexOf('\n', begin), end = next < 0 ? text.length : next;
    if (number >= line - 2 && (number <= line || begin < text.length)) {
      const from = number === line ? Math.max(0, column - 1 - MOST_SHOWN / 2) : 0;
      const part = text.slice(begin + from, Math.min(end, begin + from + MOST_SHOWN));
      shown.push({number, isAt: number === line, text: (from ? '\u2026' : '') + part + (begin + from + MOST_SHOWN < end ? '\u2026' : '')});
    }
    begin = end + 1;
  }
  return shown;
}

// What is wrong with a refused history, in words, and the lines at fault, by the program's line alone.
function historyFault(said, text) {
  const [, number, session, operation] = /^refused (\d+)(?: (\d+)\.(\d+))?/.exec(said) ?? [];
  const words = WORDS[number] ?? 'The input is refused.';
  if (number === '1') {
    const at = walk(text, () => {});
    if (at < 0) return {words, lines: []};
    const {line, column} = placeOf(text, at);
    const where = at >= text.length ? 'It ends too early' : `It goes wrong at line ${line}, column ${column}`;
    return {words: `${words} ${where}.`, lines: linesAround(text, line, column)};
  }
  if (session === undefined) return {words, lines: []};
  let found = -1;
  walk(text, (path, at) => {
    if (path.length === 3 && path[0] === 1 && path[1] === Number(session) && path[2] === Number(operation)) found = at;
  });
  const {line, column} = placeOf(text, Math.max(0, found));
  const it = `Operation ${operation} of session ${session} (both counted from 0)`;
  return {words: `${it} ${words}`, lines: found < 0 ? [] : linesAround(text, line, column)};
}

// The same of a log: the program says the line, and what is wrong there.
function logFault(said, text) {
  const [first, ...more] = said.trimEnd().split('\n'), line = Number(/^refused \d+ (\d+)/.exec(first)?.[1] ?? 0);
  const column = Number(/at column (\d+)/.exec(more.join('\n'))?.[1] ?? 1);
  return {words: more.join('\n') || 'A line of the log is refused.', lines: line ? linesAround(text, line, column) : []};
}

function faultOf(form, said, bytes) {
  const text = new TextDecoder('utf-8', {ignoreBOM: true}).decode(bytes);
  return {...(form === 'log' ? logFault : historyFault)(said, text), said: said.trimEnd()};
}

// ---- The work.

let ready, judge, given, form;

// Makes a call, and gives its answer, or says why there is none and gives undefined.
function made(id, name, stage) {
  postMessage({id, stage});
  const begun = performance.now();
  const {status, text} = judge.call(FORMS[form] + name, given);
  const seconds = (performance.now() - begun) / 1000;
  if (status === ANSWERED) return {text, seconds};
  if (status === REFUSED) postMessage({id, refused: faultOf(form, text, given)});
  else postMessage({id, memory: name});
  return undefined;
}

// Whether a call is made without an answer that anybody waits for: the page of a log that is too long for one is left out.
function tried(id, name, stage) {
  postMessage({id, stage});
  const {status, text} = judge.call(FORMS[form] + name, given);
  return status === ANSWERED ? {text} : {status};
}

function work(id, bytes) {
  given = bytes;
  form = formOf(bytes);
  postMessage({id, form, bytes: bytes.length, lines: linesOf(bytes)});
  const verdict = made(id, 'judge', 'judging');
  if (!verdict) return;
  postMessage({id, verdict: verdict.text, seconds: verdict.seconds});
  const page = tried(id, 'explain_page', 'explaining');
  if (page.text !== undefined) {
    postMessage({id, page: page.text});
    return;
  }
  const words = made(id, 'explain_words', 'explaining');
  if (words) postMessage({id, words: words.text, isLong: page.status === REFUSED});
}

onmessage = async ({data}) => {
  const id = data.judge ?? data.json;
  try {
    if (data.module) {
      ready = instantiate(data.module);
      return;
    }
    judge = await ready;
    if (data.judge !== undefined) work(id, new Uint8Array(data.bytes));
    else {
      const reasons = made(id, 'explain', 'writing JSON');
      if (reasons) postMessage({id, json: reasons.text});
    }
  } catch (error) {
    postMessage({id, failed: String(error.message ?? error)});
  }
  if (id !== undefined) postMessage({id, done: true});
};
