'use strict';

// ---- What the page is made of.

const $ = id => document.getElementById(id);
const ALL = ['cc', 'cm', 'ccv'];
const NAMES = {cc: 'causal consistency', cm: 'causal memory: one order for each client', ccv: 'causal convergence: one order for all'};
const KINDS = {
  ThinAirRead: 'a read returned a value that nobody wrote',
  WriteCOInitRead: 'a stale read: a write was lost, or is not seen yet, and the read found what was there at first',
  WriteCORead: 'a stale read: it returned a value that its client knew to be overwritten',
  CyclicCO: 'a read from the future: it returned what was written only after it',
  CyclicCF: 'replicas never agree on an order of concurrent writes',
  WriteHBInitRead: 'the reads of one session fit no single order: one returned what was there at first',
  CyclicHB: 'the reads of one session fit no single order',
};
// What a line says after its verdict, in words.
const reasonOf = (says, more) => says === 'no' ? KINDS[more] ?? ''
  : says === 'unknown' ? `nothing is known${more ? ': the order that was tried does not explain this operation' : ''}` : '';
const FORMS = {log: 'a log of events', long: 'a history of a memory', history: 'a history'};
const STAGES = {
  reading: 'Reading the file',
  judging: 'Step 1 of 2: judging',
  explaining: 'Step 2 of 2: the reasons, as a page',
  'writing JSON': 'Writing the reasons as JSON',
};

function element(name, text, kind) {
  const made = document.createElement(name);
  if (text !== undefined) made.textContent = text;
  if (kind) made.className = kind;
  return made;
}

// A number with one digit or more: 1,234 or 0.04.
const inWords = number => number.toLocaleString('en', {maximumFractionDigits: number < 1 ? 3 : number < 100 ? 1 : 0});
const ofBytes = bytes => bytes < 1e3 ? `${bytes} bytes` : bytes < 1e6 ? `${inWords(bytes / 1e3)} kB` : `${inWords(bytes / 1e6)} MB`;
const counted = (count, one) => `${inWords(count)} ${one}${count === 1 ? '' : 's'}`;

// ---- The worker: one input at a time, and a new worker after a stop or a failure.

let worker, url, module, current = 0, now = {}, timer;

// The module's bytes, unpacked once.
async function unpacked() {
  const packed = Uint8Array.from(atob($('module').textContent.trim()), it => it.charCodeAt(0));
  const stream = new Blob([packed]).stream().pipeThrough(new DecompressionStream('gzip'));
  return new Uint8Array(await new Response(stream).arrayBuffer());
}

async function start() {
  worker?.terminate();
  worker = undefined;
  url ??= URL.createObjectURL(new Blob([$('worker').textContent], {type: 'text/javascript'}));
  module ??= await unpacked();
  if (worker) return worker;
  worker = new Worker(url);
  worker.onmessage = ({data}) => { if (data.id === current) heard(data); };
  worker.onerror = event => { event.preventDefault(); failed(event.message || 'the worker did not start'); };
  worker.postMessage({module});
  return worker;
}

// ---- What is given.

async function judgeFile(file) {
  begin(file.name);
  const id = current;
  try {
    const bytes = await file.arrayBuffer();
    if (id === current) await ask(bytes);
  } catch (error) {
    if (id === current) failed(`the file could not be read: ${error.message}`);
  }
}

function judgeText(text, name) {
  begin(name);
  ask(new TextEncoder().encode(text).buffer).catch(error => failed(error.message));
}

async function ask(bytes) {
  const id = current, it = worker ?? await start();
  if (id === current) it.postMessage({judge: id, bytes}, [bytes]);
}

// Shows that work on an input begins.
function begin(name) {
  if (now.isAtWork) start().catch(() => {});
  current++;
  now = {name, isAtWork: true, begun: performance.now()};
  for (const id of ['result', 'why', 'refused', 'verdict', 'note', 'saves', 'words']) $(id).hidden = true;
  $('explained').removeAttribute('srcdoc');
  show('reading');
}

function show(stage) {
  now.stage = stage;
  $('work').hidden = false;
  $('work-title').textContent = stage === 'writing JSON' ? 'Writing' : `Judging ${now.name}`;
  $('stage').textContent = STAGES[stage];
  $('live').textContent = STAGES[stage];
  tick();
  clearInterval(timer);
  timer = setInterval(tick, 250);
}

function tick() {
  const seconds = Math.floor((performance.now() - now.begun) / 1000);
  $('elapsed').textContent = `${seconds} s` + (now.bytes ? `, ${ofBytes(now.bytes)}` : '');
}

function rest() {
  now.isAtWork = false;
  clearInterval(timer);
  $('work').hidden = true;
}

function stop() {
  if (!now.isAtWork) return;
  current++;
  start().catch(() => {});
  rest();
  $('save-json').disabled = true;
  if (now.verdict) {
    note('Stopped. What is shown stands.');
    return;
  }
  title('Stopped');
  bringIn();
}

// ---- What the worker says.

function heard(data) {
  if (data.form) Object.assign(now, {form: data.form, bytes: data.bytes, lines: data.lines});
  if (data.stage) show(data.stage);
  if (data.verdict) showVerdict(data);
  if (data.page !== undefined) showPage(data.page);
  if (data.words !== undefined) showWords(data.words, data.isLong);
  if (data.json !== undefined) save('json', data.json);
  if (data.refused) showRefusal(data.refused);
  if (data.memory) noMemory();
  if (data.failed) failed(data.failed);
  if (data.done) rest();
}

function title(text) {
  $('result').hidden = false;
  $('result-title').textContent = text;
  $('given').textContent = now.form
    ? `${now.name}: ${FORMS[now.form]}, ${now.form === 'log' ? `${counted(now.lines, 'line')}, ` : ''}${ofBytes(now.bytes)}` : now.name ?? '';
  $('live').textContent = text;
}

// Shows the answer to a reader whose screen it lies below, and to one who hears the page.
function bringIn() {
  $('result-title').focus({preventScroll: true});
  $('result').scrollIntoView({block: 'nearest'});
}

function note(text) {
  $('note').textContent = text;
  $('note').hidden = false;
  $('live').textContent = text;
}

// The three lines, each with what its words mean.
function showVerdict({verdict, seconds}) {
  now.verdict = verdict;
  const lines = verdict.trimEnd().split('\n').map(line => line.split(' '));
  const said = new Map(lines.map(([name, ...more]) => [name, more]));
  const broken = ALL.filter(name => said.get(name)?.[0] === 'no');
  const unknown = ALL.some(name => said.get(name)?.[0] === 'unknown');
  title(broken.length ? `No: ${broken.length === 3 ? 'it meets none of the three criteria' : `it does not meet ${broken.join(' and ')}`}`
    : unknown ? 'Unknown' : 'Yes: it meets all three criteria');
  $('given').textContent += seconds < 0.01 ? '; judged in less than 0.01 s' : `; judged in ${inWords(seconds)} s`;
  $('verdict-rows').replaceChildren(...lines.map(([name, says, ...more]) => {
    const row = element('tr'), head = element('th'), kind = more.join(' ');
    head.scope = 'row';
    head.append(element('code', name), ` ${NAMES[name] ?? ''}`);
    const cell = element('td');
    cell.append(element('code', kind), ` ${reasonOf(says, kind)}`);
    row.append(head, element('td', says, `says ${says}`), cell);
    return row;
  }));
  $('verdict').hidden = false;
  $('saves').hidden = false;
  $('save-page').disabled = true;
  $('save-json').disabled = true;
  bringIn();
}

function showPage(page) {
  now.page = page;
  $('explained').srcdoc = page;
  $('explained').hidden = false;
  $('why').hidden = false;
  $('save-page').disabled = false;
  $('save-json').disabled = false;
  $('live').textContent = 'The reasons are shown below.';
}

function showWords(words, isLong) {
  $('words').textContent = words;
  $('words').hidden = false;
  $('explained').hidden = true;
  $('why').hidden = false;
  $('save-json').disabled = false;
  note(isLong ? 'This input is too long for a page: the reasons stand below in words.'
    : 'There was no memory for a page: the reasons stand below in words.');
}

function showRefusal({words, lines, said}) {
  title('The input is refused');
  $('refused').hidden = false;
  $('refused-words').textContent = words;
  $('refused-lines').hidden = !lines.length;
  $('refused-lines').replaceChildren(...lines.map(({number, isAt, text}) =>
    element('span', `${isAt ? '\u2192' : ' '} ${String(number).padStart(4)}  ${text}\n`, isAt ? 'at' : '')));
  $('refused-program').textContent = `The program says: ${said.split('\n')[0]}`;
  bringIn();
}

function noMemory() {
  if (now.verdict) {
    note('There was no memory for the reasons: the program causal_judge takes larger inputs.');
    return;
  }
  title('There was no memory for this input');
  note('A page of a browser has at most some gigabytes. The program causal_judge takes larger inputs.');
}

function failed(why) {
  worker?.terminate();
  worker = undefined;
  rest();
  $('save-json').disabled = true;
  if (!now.verdict) title('This was not judged');
  note(`It went wrong: ${why}`);
}

// ---- What is saved.

const TYPES = {page: ['.html', 'text/html'], json: ['.json', 'application/json'], lines: ['.txt', 'text/plain']};

function save(what, text) {
  const [ending, type] = TYPES[what], link = element('a'), made = URL.createObjectURL(new Blob([text], {type}));
  link.href = made;
  link.download = `${now.name.replace(/\.[a-z]+$/i, '').replace(/[^\w.-]+/g, '_') || 'run'}.causal_judge${ending}`;
  document.body.append(link);
  link.click();
  link.remove();
  setTimeout(() => URL.revokeObjectURL(made), 60000);
}

function saveReasons() {
  if (now.isAtWork) return;
  Object.assign(now, {isAtWork: true, begun: performance.now()});
  show('writing JSON');
  worker.postMessage({json: current});
}

// ---- What the reader does.

$('choose').onclick = () => $('file').click();
$('file').onchange = event => {
  if (event.target.files[0]) judgeFile(event.target.files[0]);
  event.target.value = '';
};
$('judge-text').onclick = () => judgeText($('text').value, 'the text');
$('stop').onclick = stop;
$('save-page').onclick = () => save('page', now.page);
$('save-json').onclick = saveReasons;
$('save-lines').onclick = () => save('lines', now.verdict);
$('taller').onclick = () => $('taller').setAttribute('aria-pressed', String($('explained').classList.toggle('tall')));
document.onkeydown = event => { if (event.key === 'Escape') stop(); };

// Whether something that is dragged or pasted has a file or a text.
const isOurs = given => [...given.types].some(type => type === 'Files' || type === 'text/plain');
function take(given) {
  const file = given.files[0];
  if (file) judgeFile(file);
  else if (given.getData('text/plain').trim()) judgeText(given.getData('text/plain'), 'the text');
  else return false;
  return true;
}
document.ondragover = event => {
  if (!isOurs(event.dataTransfer)) return;
  event.preventDefault();
  document.body.classList.add('over');
};
document.ondragleave = event => { if (!event.relatedTarget) document.body.classList.remove('over'); };
document.ondrop = event => {
  document.body.classList.remove('over');
  if (!isOurs(event.dataTransfer) || event.target === $('text')) return;
  event.preventDefault();
  take(event.dataTransfer);
};
document.onpaste = event => {
  if (event.target === $('text') && !event.clipboardData.files.length) return;
  if (take(event.clipboardData)) event.preventDefault();
};

for (const {name, about, text} of JSON.parse($('samples').textContent)) {
  const button = element('button', about);
  button.type = 'button';
  button.onclick = () => {
    $('text').value = text;
    judgeText(text, name);
  };
  $('examples').append(button);
}
start().catch(error => failed(`this browser cannot run the judge: ${error.message}`));
