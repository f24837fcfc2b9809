// Asks the functions of the page's script, without a page. Standard input is a JSON object: the script that touches no element, and cases, each
// five JSON texts. What the functions give for each case is written as JSON.
'use strict';
const fs = require('fs'), vm = require('vm');

const WANTED = ['readHistory', 'readJson', 'nameAll', 'gatherFaults', 'stepsOf', 'wordLines', 'faultSentence', 'operationWords', 'layOut',
  'placeRows', 'plainText', 'readLines', 'wayBetween', 'guaranteeOf', 'operationPieces', 'nameShown', 'jsonShown', 'cut', 'readNotes', 'noteWords'];
const WIDTHS = [1180, 330], MOST_FAULTS = 40;

function answersOf(made, [history, ...texts]) {
  const notes = made.readNotes(texts.pop()), [said, names, lines] = texts.map(made.readJson);
  const run = made.readLines(made.readHistory(history), lines, names, notes), named = made.nameAll(run, names);
  const {verdicts, faults} = made.gatherFaults(run, said), place = op => op < 0 ? null : [run.session[op], op - run.base[run.session[op]]];
  const words = fault => made.wordLines(run, named, fault, made.stepsOf(run, fault)).map(line => made.plainText([line]));
  const operations = Array.from({length: Math.min(run.count, 400)}, (_, op) => made.plainText([made.operationWords(run, named, op)]));
  return {
    values: run.values.tokens.map(String), keys: run.keys.tokens.map(String), operations,
    notes: operations.map((_, op) => made.plainText([made.noteWords(run, op)])),
    pieces: operations.map((_, op) => made.operationPieces(run, named, op)), sessions: Array.from({length: run.sessions}, (_, s) => named.session(s)),
    verdicts: verdicts.map(({criterion, answer, fault, twin}) => ({criterion, answer, twin: twin && twin.criterion, words: fault && words(fault)})),
    faults: faults.slice(0, MOST_FAULTS).map(fault => ({kind: fault.kind, read: place(fault.read), missed: place(fault.missed),
      source: place(fault.source), cycle: [...fault.cycle].map(place), isListed: fault.listed, sentence: made.plainText([made.faultSentence(run, named, fault)]), guarantee: made.guaranteeOf(run, fault),
      steps: stepsOf(made, run, fault, place), plans: WIDTHS.map(width => planOf(made, run, fault, width))})),
    many: faults.length,
  };
}
function stepsOf(made, run, fault, place) {
  const {first, last} = made.stepsOf(run, fault);
  return [...first, ...last].map(({how, from, to, why}) => ({how, from: place(from), to: place(to), why: why === undefined ? null : place(why)}));
}
function planOf(made, run, fault, width) {
  const plan = made.layOut(run, fault, made.stepsOf(run, fault), width);
  const low = made.placeRows(plan, 50, node => Array(node.op === fault.read ? 4 : 3).fill(['op', '']));
  const half = plan.box / 2;
  return {
    low, across: plan.across, isWide: plan.isWide, boxes: [...plan.nodes.values()].map(({x, y, tall}) => [x - half, y, x + half, y + tall]),
    links: plan.links.map(({how, from, to, out, side, x, fromY, toY}) => ({how, from: [from.x + out * half, fromY], to: [to.x + side * half, toY], x})),
  };
}

const {script, cases} = JSON.parse(fs.readFileSync(0, 'utf8'));
const made = vm.runInNewContext(`${script}\nreturn {${WANTED.join(', ')}};\n})();`);
process.stdout.write(JSON.stringify(cases.map(texts => answersOf(made, texts))));
