"use strict";
// What the page knows: its schedules, its runs, and what is shown. And how it makes its elements.
const DATA = JSON.parse(document.getElementById("data").textContent);
DATA.forEach((it) => { it.rows = Model.rowsOf(it); });
const MOST_CELLS = 64;
const MOST_MUTATORS = 6;
const get = (id) => document.getElementById(id);
const shown = { schedule: 0, rule: "", at: 0, timer: null };
const runs = new Map();
const summaries = new Map();

function make(kind, name, ...children) {
  const it = document.createElement(kind);
  if (name) it.className = name;
  it.append(...children);
  return it;
}

function draw(kind, values, words) {
  const it = document.createElementNS("http://www.w3.org/2000/svg", kind);
  for (const [key, value] of Object.entries(values)) it.setAttribute(key, value);
  if (words !== undefined) it.textContent = words;
  return it;
}

// A run; the last few are kept.
function runOf(schedule, rule) {
  const key = `${schedule} ${rule}`;
  if (!runs.has(key)) {
    if (runs.size > 3) runs.clear();
    runs.set(key, Model.play(DATA[schedule].text, rule || undefined));
  }
  return runs.get(key);
}

// What a run comes to.
function summaryOf(schedule, rule) {
  const key = `${schedule} ${rule}`;
  if (!summaries.has(key)) {
    const { lost, text, steps } = runOf(schedule, rule);
    summaries.set(key, { lost, said: `${steps.length} ${text.join()}` });
  }
  return summaries.get(key);
}

const data = () => DATA[shown.schedule];
const run = () => runOf(shown.schedule, shown.rule);
const rule = () => RULES.find((it) => it.id === shown.rule);
const steps = (it) => it.steps.length + (it.refused ? 1 : 0);
const stepAt = (it, at) => it.steps[at - 1] || (at > 0 ? it.refused : null);
const stateAt = (it, at) => {
  if (at === 0) return it.opening;
  return at <= it.steps.length ? it.steps[at - 1].after : it.last;
};
const title = (name) => Model.large(name.replaceAll("_", " "));

// What is shown of each cell: by the replay's text, and without a rule by the model.
function rowsAt(at) {
  const known = data().rows;
  if (shown.rule === "") return known[Math.min(at, known.length - 1)];
  const s = stateAt(run(), at);
  return s.colours.map((_, c) => Model.row(s, c).split(" ").slice(2).join(" "));
}

// The first step at which the model's cells are not those of the replay's text, or none.
function disagrees(schedule) {
  const own = runOf(schedule, "");
  const its = DATA[schedule];
  if (own.steps.length !== its.events.length) return Math.min(own.steps.length, its.events.length);
  for (let at = 0; at <= own.steps.length; at += 1) {
    const s = stateAt(own, at);
    const same = s.colours.every((_, c) => Model.row(s, c) === `cell ${c} ${its.rows[at][c]}`)
      && (at === 0 || own.steps[at - 1].line === its.events[at - 1]);
    if (!same) return at;
  }
  const refused = own.refused ? own.refused.line : null;
  return refused === its.refused ? null : own.steps.length + 1;
}

function differs(schedule, id) {
  const found = summaryOf(schedule, id);
  return found.said !== summaryOf(schedule, "").said || found.lost !== null;
}
