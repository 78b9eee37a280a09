"use strict";
// Tests the page's model without a browser; .ci/page runs it:  node check.js DATA SCHEDULES
// DATA is what `play --data` writes of the schedules that lie in the folder SCHEDULES.
const fs = require("fs");
const path = require("path");
const vm = require("vm");

// the same texts that `play` puts into the page
for (const name of ["state", "mutator_events", "collector_events", "model", "rules"]) {
  const file = path.join(__dirname, `${name}.js`);
  vm.runInThisContext(fs.readFileSync(file, "utf8"), { filename: file });
}
const [Model, RULES] = vm.runInThisContext("[Model, RULES]");

const [, , dataFile, folder] = process.argv;
const data = JSON.parse(fs.readFileSync(dataFile, "utf8"));
let passed = 0;
let failed = 0;

function test(holds, words) {
  if (holds) {
    passed += 1;
  } else {
    failed += 1;
    console.log(`failed: ${words}`);
  }
}

const rows = (s) => s.colours.map((_, c) => Model.row(s, c).replace(/^cell \d+ /, ""));

for (const it of data) {
  const run = Model.play(it.text);
  const stored = fs.readFileSync(path.join(folder, `${it.name}.stdout`), "utf8");
  test(`${run.text.join("\n")}\n` === stored, `${it.name}: the model writes what a replay writes`);
  test(run.steps.map((step) => step.line).join() === it.events.join()
    && (run.refused ? run.refused.line : null) === it.refused, `${it.name}: the same events`);
  const states = [run.opening, ...run.steps.map((step) => step.after)];
  const known = Model.rowsOf(it);
  const at = states.findIndex((s, k) => JSON.stringify(rows(s)) !== JSON.stringify(known[k]));
  test(at < 0, `${it.name}: the same cells at each step, and not at step ${at}`);
  test(run.lost === null, `${it.name}: no cell is lost by the whole table`);
}
for (const rule of RULES) {
  const it = data.find((one) => one.name === rule.schedule);
  const run = it && Model.play(it.text, rule.id);
  test(it && run.lost !== null, `${rule.id}: a cell is lost in ${rule.schedule}`);
}
console.log(`model: ${passed} passed, ${failed} failed`);
process.exit(failed === 0 ? 0 : 1);
