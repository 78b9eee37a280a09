"use strict";
// The state of the core as the page's model has it, and what a mutator knows and may do. A part of
// the model, which is not the proved program (model.js).
const State = (() => {
  const STAGES = ["idle", "sync1", "clear", "sync2", "trace", "sweep"];
  const HANDSHAKES = ["sync1", "sync2", "trace"];
  const REQUESTED = {
    idle: "async", sync1: "sync1", clear: "sync1", sync2: "sync2", trace: "async", sweep: "async",
  };
  const NEXT = { async: "sync1", sync1: "sync2", sync2: "async" };
  const CYCLES = 4000000000;

  // Values of fields are texts, as a schedule has them: `-`, `=N` or `@N`.
  const cellOf = (value) =>
    (value !== undefined && value[0] === "@" ? Number(value.slice(1)) : null);
  const say = (value) => {
    if (value === "-") return "null";
    return value[0] === "=" ? `the number ${value.slice(1)}` : `cell ${value.slice(1)}`;
  };
  const sayCell = (cell) => (cell === 0 ? "the anchor" : `cell ${cell}`);
  const sayColour = (colour) => (colour === "blue" ? "free" : colour);
  const large = (text) => text.slice(0, 1).toUpperCase() + text.slice(1);

  function opening(cells, mutators, room) {
    const each = (many, of) => Array.from({ length: many }, (_, k) => of(k));
    return {
      cells, mutators, room,
      colours: each(cells, (c) => (c === 0 ? "white" : "blue")),
      rows: each(cells, (c) => ["-", "-", "-", "-", "-", c === 0 ? "=2" : "-"]),
      freed: each(cells, () => 0),
      who: each(mutators, () => ({
        status: "async", inside: false, over: false, held: [], mode: null, pending: null,
      })),
      stage: "idle", position: 0, cycles: 0, duty: false,
      answered: each(mutators, () => false),
      anchorMarked: false, cursor: 0, clean: false, scan: null, sweep: "fresh", wiped: 0,
    };
  }

  // A copy that can be changed, but for the row of a cell, which `set` puts in place.
  const copy = (s) => ({
    ...s,
    colours: [...s.colours],
    rows: [...s.rows],
    freed: [...s.freed],
    who: s.who.map((m) => ({
      ...m,
      held: m.held.map((place) => ({ ...place })),
      mode: m.mode && { ...m.mode },
      pending: m.pending && { ...m.pending },
    })),
    answered: [...s.answered],
    scan: s.scan && { ...s.scan },
  });
  const set = (s, c, f, value) => {
    s.rows[c] = s.rows[c].map((old, k) => (k === f ? value : old));
  };

  // What a mutator knows and may do.
  const NOBODY = {
    status: "async", inside: false, over: true, held: [], mode: null, pending: null,
  };
  const mutator = (s, i) => s.who[i] || NOBODY;
  const target = (m, place) => (m.held[place] ? m.held[place].cell : 0);
  const holds = (m, value) =>
    cellOf(value) === null || m.held.some((it) => it.cell === cellOf(value));
  const marked = (m, value) =>
    cellOf(value) === null || m.held.some((it) => it.marked && it.cell === cellOf(value));
  const isRaw = (s, c) => (s.rows[c] ? s.rows[c][5] === "-" : true);
  const isBox = (s, c) => (s.rows[c] ? s.rows[c][5] === "=2" : false);
  const allAnswered = (s) => s.answered.every((it) => it);
  const missing = (s) => s.answered.flatMap((it, i) => (it ? [] : [i])).join(", ");

  // What a mutator has to mark before a write: nothing, old or both.
  function barrier(m) {
    if (!m.mode) return "nothing";
    if (m.status !== "async") return "both";
    return m.mode.stage === "trace" ? "old" : "nothing";
  }

  // The status that a mutator takes by its next answer.
  function next(s, m, without) {
    const missed = m.status === "sync1" && s.stage === "trace";
    return without === "second-handshake" && missed ? "async" : NEXT[m.status];
  }

  // The colour of a cell that is claimed by this mode.
  function born(m, c, without) {
    if (!m.mode || m.status !== "async") return "white";
    if (m.mode.stage === "trace") return without === "claim-tracing" ? "white" : "black";
    if (m.mode.stage !== "sweep" || c < m.mode.position) return "white";
    return without === "claim-sweeping" ? "white" : "black";
  }

  const unmark = (m) => m.held.forEach((place) => { place.marked = false; });
  const spend = (m) => { unmark(m); m.mode = null; m.pending = null; };
  const hold = (m, value) => {
    if (cellOf(value) !== null) m.held.push({ cell: cellOf(value), marked: false });
  };
  const shade = (s, c) => { if (s.colours[c] === "white") s.colours[c] = "gray"; };

  return { STAGES, HANDSHAKES, REQUESTED, CYCLES, cellOf, say, sayCell, sayColour, large, opening,
    copy, set, mutator, target, holds, marked, isRaw, isBox, allAnswered, missing, barrier, next,
    born, unmark, spend, hold, shade };
})();
