// Asks the views of the page's script, without a page. Standard input is a JSON object: the part of the script that zooms, and cases.
// A case has the stretches of a view and what is done to it. For each act, what the stretches show after it, what it returned and how
// often the view was drawn are written as JSON.
'use strict';
const fs = require('fs'), vm = require('vm');

const {script, cases} = JSON.parse(fs.readFileSync(0, 'utf8'));
const {Stretch, View} = vm.runInNewContext(`(() => {${script}\nreturn {Stretch, View};\n})()`);

function answersOf({stretches, acts}) {
  let draws = 0;
  const view = new View(() => { draws++; }, () => null);
  view.stretches = stretches.map(({all, least, pixels, end, begin}) => Object.assign(new Stretch(all, least, pixels, end), {begin}));
  return acts.map(([act, ...given]) => {
    draws = 0;
    const changed = view[act](...given);
    return {changed, draws, isWhole: view.isWhole, shown: view.stretches.map(({from, to}) => [from, to])};
  });
}
process.stdout.write(JSON.stringify(cases.map(answersOf)));
