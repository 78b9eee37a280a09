"use strict";
// The parts of the page at a step. Where no rule is left out each cell is shown as the replay's
// text has it; all else is the model's.
function showHead() {
  get("name").textContent = title(data().name);
  document.title = title(data().name);
  get("comment").textContent = run().comment.join(" ");
  const found = disagrees(shown.schedule);
  get("origin").replaceChildren("Colours, fields and how often a cell was freed are what ",
    make("code", "", "docheap replay"), " writes after each step. Stage, statuses, held lists and "
    + "the rest are a model of this page, not the proved program: "
    + (found === null
      ? `its cells are the replay's at each of the ${data().events.length} steps.`
      : `it is WRONG here, its cells are not the replay's at step ${found}.`)
    + " With a rule left out all is that model's.");
}

function showChoice() {
  const select = get("rule");
  const groups = { lose: [], differ: [], else: [], other: [] };
  for (const it of RULES) {
    const at = DATA.findIndex((one) => one.name === it.schedule);
    if (summaryOf(shown.schedule, it.id).lost !== null) groups.lose.push(it);
    else if (differs(shown.schedule, it.id)) groups.differ.push(it);
    else if (at >= 0) groups.other.push(it);
    else groups.else.push(it);
  }
  select.replaceChildren(new Option("none: the table as it is", ""));
  const names = { lose: "loses a cell in this schedule", differ: "changes this schedule",
    other: "in another schedule of this page", else: "makes no difference in this schedule" };
  for (const [key, words] of Object.entries(names)) {
    if (groups[key].length) {
      const group = make("optgroup");
      group.label = words;
      group.append(...groups[key].map((it) => new Option(it.name, it.id)));
      select.append(group);
    }
  }
  select.value = shown.rule;
  get("schedule").replaceChildren(...DATA.map((it, k) => new Option(title(it.name), k)));
  get("schedule").value = shown.schedule;
  get("choose-schedule").hidden = DATA.length === 1;
}

function jump(words, at) {
  const it = make("button", "", words);
  it.onclick = () => goTo(at);
  return it;
}

function showBanner() {
  const parts = [];
  if (shown.rule !== "") {
    const whole = runOf(shown.schedule, "");
    const part = make("div", "left",
      make("p", "", make("b", "", `Left out: ${rule().name}. `), `${rule().rule} Without it: `
        + `${rule().change.slice(0, 1).toLowerCase()}${rule().change.slice(1)}`),
      "This is a model of this page, not the proved program. ");
    if (whole.refused && whole.steps.length < run().steps.length) {
      part.append(`With the rule, line ${whole.refused.number} (${whole.refused.line}) cannot `
        + "happen, and the replay ends there.",
        jump("go to that step", whole.steps.length + 1));
    }
    if (run().lost !== null && shown.at < run().lost) {
      part.append(jump("go to the loss", run().lost));
    }
    if (run().lost === null) part.append(`No cell is lost in this schedule without it; in `
      + `examples/schedules/${rule().schedule} one is.`);
    parts.push(part);
  }
  const s = stateAt(run(), shown.at);
  const ways = Model.reach(s);
  const lost = Model.lost(s, ways);
  if (lost.length) {
    const own = rule() && rule().schedule === data().name ? rule().why : "";
    parts.push(make("div", "lost", make("b", "", `Lost: ${lost.map(Model.sayCell).join(", ")}. `),
      ...lost.slice(0, 3).map((c) => `${Model.large(Model.sayCell(c))} is free, but `
        + `${ways[c].join("; ")}. `), own));
  }
  get("banner").replaceChildren(...parts);
}

function showEvent() {
  const it = stepAt(run(), shown.at);
  const part = get("event");
  part.className = "";
  if (!it) {
    part.replaceChildren(make("h2", "", "Before the first step"),
      make("p", "", "The anchor, cell 0, is the only cell in use: a box with null fields. Every "
        + "mutator is out, and the collector is idle."));
    return;
  }
  const who = it.event.i === undefined || !Model.OF_MUTATOR.includes(it.event.kind)
    ? "the collector" : `mutator ${it.event.i}`;
  const from = it.words === "plain" ? ", by plain" : "";
  const list = make("ul", "needs");
  for (const need of it.needs) {
    const gone = need.left && !need.holds;
    const kind = gone ? "gone" : need.holds ? "yes" : "no";
    list.append(make("li", kind, make("span", "what", need.words),
      gone ? " (does not hold: this is the rule that is left out)" : ""));
  }
  const meant = it.line.split(" ").length < 3 ? [] : Model.words(it.event);
  part.classList.toggle("no", !it.can);
  part.replaceChildren(
    make("h2", "", `Step ${shown.at}: ${who} (line ${it.number} of the schedule${from})`),
    make("div", "code", it.line),
    make("div", "meant", meant.length ? `${it.event.kind}: ${meant.join(", ")}` : ""),
    make("p", "", it.can ? it.says : "This cannot happen now, and the run ends here. "
      + `${it.line === "plain" ? it.says : ""}`),
    make("h2", "", it.can ? "It can happen, since" : "It would need that"), list);
  const broken = RULES.find((one) => it.needs.some((need) => need.rule === one.id && !need.holds
    && !need.left));
  if (!it.can && shown.rule === "" && broken) {
    const without = make("button", "", "go on without this rule");
    without.onclick = () => choose(shown.schedule, broken.id, shown.at);
    part.append(make("p", "", without));
  }
}

function showCollector(s) {
  const stages = make("div", "stages", ...Model.STAGES.map((name) => {
    const it = make("span", name === s.stage ? "now" : "", name);
    if (name === s.stage) it.style.background = `var(--${name})`;
    return it;
  }));
  const list = make("dl");
  const say = (name, words) => list.append(make("dt", "", name), make("dd", "", words));
  say("asks for", Model.REQUESTED[s.stage]);
  if (Model.HANDSHAKES.includes(s.stage)) {
    const yes = s.answered.flatMap((it, i) => (it ? [i] : []));
    say("answered", yes.length === s.mutators ? "all" : yes.join(", ") || "nobody yet");
  }
  if (s.stage === "clear") {
    say("clearing", s.cursor < s.cells ? `has come to cell ${s.cursor}` : "done");
  }
  if (s.stage === "sync2") say("the anchor", s.anchorMarked ? "is marked" : "is not marked yet");
  if (s.stage === "trace") {
    say("this pass", `${s.cursor < s.cells ? `has come to cell ${s.cursor}` : "is at its end"}; `
      + `${s.clean ? "met no gray cell" : "met a gray cell"}`);
    const field = s.scan && s.scan.next < 5 ? `field ${s.scan.next}` : "all fields read";
    say("scans", s.scan ? `${Model.sayCell(s.scan.cell)}, ${field}`
      + `${s.scan.child === null ? "" : `; child: ${Model.sayCell(s.scan.child)}`}` : "no cell");
  }
  if (s.stage === "sweep") {
    const doing = s.sweep === "wiping" ? `wiping, ${s.wiped} of 6 fields` : s.sweep;
    say("position", s.position < s.cells ? `cell ${s.position}: ${doing}` : "past the last cell");
  }
  say("cycles", `${s.cycles} ended${s.duty ? ", on duty" : ""}`);
  const it = stepAt(run(), shown.at);
  get("collector").classList.toggle("acts", !!it && !Model.OF_MUTATOR.includes(it.event.kind));
  get("collector").replaceChildren(make("h2", "", "Collector"), stages, list);
}

function showMutator(s, i) {
  const m = s.who[i];
  const it = stepAt(run(), shown.at);
  const acts = it && Model.OF_MUTATOR.includes(it.event.kind) && it.event.i === i;
  const part = make("article", `mutator${m.inside ? "" : " out"}${acts ? " acts" : ""}`);
  const chip = make("span", "chip", m.status);
  chip.style.background = `var(--${m.status})`;
  part.append(make("header", "", make("h3", "", `mutator ${i}`), chip,
    make("span", "faint", m.over ? "over" : m.inside ? "in" : "out, holds nothing")));
  if (!m.inside) return part;
  const wants = { nothing: "wants no mark", old: "wants the old value marked",
    both: "wants the old and the new value marked" }[Model.barrier(m)];
  part.append(make("div", "faint", m.mode
    ? `mode: looked in ${m.mode.stage}${m.mode.stage === "sweep" ? ` at ${m.mode.position}` : ""}; `
      + `a write ${wants}`
    : "no mode: it has to look before it writes or claims"));
  if (m.pending) {
    const c = m.held[m.pending.place].cell;
    const now = s.rows[c][m.pending.f];
    const want = Model.barrier(m) === "nothing" ? ""
      : `; the value that it read is ${Model.marked(m, m.pending.found) ? "" : "not "}marked`;
    part.append(make("div", "making", `store begun: field ${m.pending.f} of ${Model.sayCell(c)}; `
      + `it read ${Model.say(m.pending.found)}${want}`
      + `${now === m.pending.found ? "" : `. Doubtful: ${Model.say(now)} stands there now`}`));
  }
  const places = make("div", "places");
  m.held.forEach((place, k) => {
    const chosen = make("span", `place${place.marked ? " marked" : ""}`,
      `${k}: @${place.cell}${place.marked ? " marked" : ""}`);
    chosen.dataset.to = place.cell;
    places.append(chosen);
  });
  part.append(places);
  return part;
}

function fieldAt(c, f) {
  return get("cells").querySelector(`[data-cell="${c}"] [data-f="${f}"]`);
}

function showCell(s, c, row, before, ways) {
  const [colour, ...rest] = row.split(" ");
  const fields = rest.slice(0, 6);
  const lost = colour === "blue" && ways[c] !== null;
  const hit = !lost && s.sweep === "wiping" && s.position === c && ways[c] !== null;
  const old = before.split(" ");
  const changed = old.slice(0, 7).join() !== [colour, ...fields].join();
  const part = make("article",
    `cell ${colour}${changed ? " changed" : ""}${lost ? " lost" : ""}${hit ? " hit" : ""}`);
  part.dataset.cell = c;
  part.append(make("header", "", make("h3", "", c === 0 ? "0 anchor" : `cell ${c}`),
    make("span", "colour", colour === "blue" ? "free" : colour)));
  const list = make("div", "fields");
  fields.forEach((field, f) => {
    const kind = { "-": colour === "blue" ? "-" : "raw", "=1": "record", "=2": "box" }[field];
    const it = make("div", `field${old[f + 1] === field ? "" : " changed"}`,
      make("span", "n", f < 5 ? String(f) : "kind"),
      make("span", "v", f < 5 ? field : kind || field));
    it.dataset.f = f;
    if (f < 5 && field[0] === "@") it.dataset.to = field.slice(1);
    list.append(it);
  });
  part.append(list);
  const freed = make("span", "freed", `freed ${rest[7]}`);
  const tags = make("div", "tags", freed);
  if (lost) tags.append(" ", make("b", "", "LOST"));
  else if (hit) tags.append(" ", make("b", "", "is wiped"));
  else if (colour !== "blue" && ways[c] === null) tags.append(", garbage");
  part.append(tags);
  return part;
}

function showHeap(s) {
  const ways = Model.reach(s);
  const rows = rowsAt(shown.at);
  const before = rowsAt(Math.max(shown.at - 1, 0));
  // of many mutators those that are out are counted
  const step = stepAt(run(), shown.at);
  const shownOnes = s.who.flatMap((m, i) => (s.mutators <= MOST_MUTATORS || m.inside
    || (step && step.event.i === i) ? [i] : []));
  get("mutators").replaceChildren(...shownOnes.map((i) => showMutator(s, i)));
  if (shownOnes.length < s.mutators) {
    get("mutators").append(make("p", "more", `${s.mutators - shownOnes.length} more are out.`));
  }
  // in a heap of many cells the free ones, which are all alike, are counted
  const drawn = s.colours.flatMap((_, c) => (s.cells <= 12 || !rows[c].startsWith("blue")
    || rows[c] !== before[c] || ways[c] !== null ? [c] : [])).slice(0, MOST_CELLS);
  get("cells").replaceChildren(...drawn.map((c) => showCell(s, c, rows[c], before[c], ways)));
  if (drawn.length < s.cells) {
    get("cells").append(make("p", "more", `${s.cells - drawn.length} more cells are not drawn; of `
      + `all ${s.cells}, ${rows.filter((row) => row.startsWith("blue")).length} are free.`));
  }
  s.who.forEach((m) => {
    if (m.pending) {
      const it = fieldAt(m.held[m.pending.place].cell, m.pending.f);
      if (it) it.classList.add("fetched");
    }
  });
  showArrows();
}

// Why the rule is there; where the loss is shown, that stands beside it.
function showWhy() {
  const it = rule();
  const told = it && it.schedule === data().name && get("banner").querySelector(".lost");
  get("why").hidden = !it || told;
  if (!it) return;
  get("why").replaceChildren(make("h2", "", "Why the rule is there"), make("p", "", it.why),
    make("p", "faint", `The run of examples/schedules/${it.schedule} shows it.`));
}
