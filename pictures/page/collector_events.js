"use strict";
// The events of the collector: what each needs, what it does, and a sentence of that, as those of a
// mutator. A part of the page's model, which is not the proved program (model.js).
const CollectorEvents = (() => {
  const { HANDSHAKES, REQUESTED, CYCLES, cellOf, say, sayCell, sayColour, set, mutator, allAnswered,
    missing, next, shade } = State;

  const atStage = (s, stage) => [`the stage is ${stage}`, s.stage === stage];
  const answers = (s, rule) => [
    allAnswered(s) ? "every mutator has answered this handshake"
      : `every mutator has answered this handshake (missing: ${missing(s)})`, allAnswered(s), rule];
  const scanning = (s) => ["a cell is under scan", s.scan !== null];

  // The exchange on a status word succeeds.
  function mayAnswer(s, e, without) {
    const m = mutator(s, e.i);
    return (without === "answer-in" || !m.inside) && m.over === (e.over === "over")
      && next(s, m, without) === REQUESTED[s.stage];
  }

  return {
    post: {
      words: ["stage"],
      needs: (s, e) => ({
        idle: () => [atStage(s, "sweep"),
          [`the sweep is at its end (${s.position} of ${s.cells})`, s.position === s.cells]],
        sync1: () => [atStage(s, "idle"), ["cycles can still be counted", s.cycles < CYCLES]],
        clear: () => [atStage(s, "sync1"), answers(s, "first-handshake")],
        sync2: () => [atStage(s, "clear"),
          [`clearing is at its end (${s.cursor} of ${s.cells})`, s.cursor === s.cells]],
        trace: () => [atStage(s, "sync2"), answers(s, "second-handshake"),
          ["the anchor is marked", s.anchorMarked, "anchor"]],
        sweep: () => [atStage(s, "trace"), answers(s),
          ["no cell is under scan", s.scan === null],
          [`this pass is at its end (${s.cursor} of ${s.cells})`, s.cursor === s.cells, "pass-end"],
          ["this pass has met no gray cell", s.clean, "clean-pass"]],
      }[e.stage]()),
      take: (s, e) => {
        if (e.stage === "idle") s.cycles += 1;
        if (e.stage === "idle" || e.stage === "sweep") s.position = 0;
        if (HANDSHAKES.includes(e.stage)) s.answered = s.answered.map(() => false);
        if (e.stage === "clear" || e.stage === "trace") s.cursor = 0;
        if (e.stage === "sync2") s.anchorMarked = false;
        if (e.stage === "trace") s.clean = true;
        if (e.stage === "sweep") s.sweep = "fresh";
        s.stage = e.stage;
      },
      says: (s, e) => ({
        idle: "The sweep has gone over all cells: the cycle ends.",
        sync1: "A cycle begins. The collector asks each mutator for sync1.",
        clear: `${allAnswered(s) ? "All are in sync1. " : ""}The collector clears: each black cell `
          + "becomes white.",
        sync2: "All is cleared. The collector asks each mutator for sync2.",
        trace: "The collector asks each mutator for async, with its roots marked, and then traces.",
        sweep: "Tracing ends. The collector sweeps: what is white now is freed.",
      }[e.stage]),
    },
    duty: {
      words: ["on"],
      needs: (s) => [atStage(s, "idle")],
      take: (s, e) => { s.duty = e.on === "on"; },
      says: (s, e) => `The collector is ${e.on} duty.`,
    },
    poll: {
      needs: (s, e) => [
        ["a handshake goes on", HANDSHAKES.includes(s.stage)],
        [`there is a mutator ${e.i}`, e.i < s.mutators]],
      take: (s, e) => { if (s.who[e.i].status === REQUESTED[s.stage]) s.answered[e.i] = true; },
      says: (s, e) => {
        const has = mutator(s, e.i).status === REQUESTED[s.stage];
        return `The collector looks at mutator ${e.i}: its status is ${mutator(s, e.i).status}, so `
          + `it has ${has ? "" : "not "}answered.`;
      },
    },
    out: {
      words: ["over"],
      needs: (s, e) => [
        ["a handshake goes on", HANDSHAKES.includes(s.stage)],
        [`there is a mutator ${e.i}`, e.i < s.mutators],
        ["it has not answered yet", !s.answered[e.i]]],
      take: (s, e, without) => {
        if (!mayAnswer(s, e, without)) return;
        s.who[e.i].status = REQUESTED[s.stage];
        s.answered[e.i] = true;
      },
      says: (s, e, without) => {
        const m = mutator(s, e.i);
        if (!mayAnswer(s, e, without)) {
          return `The collector tries to answer for mutator ${e.i}, which is `
            + `${m.inside ? "in" : "not as it expects"}: nothing changes.`;
        }
        return `The collector answers for mutator ${e.i}, which is `
          + `${m.inside ? "in (the rule that is left out forbids it)" : "out"}: its status becomes `
          + `${REQUESTED[s.stage]}.`;
      },
    },
    clear: {
      needs: (s) => [atStage(s, "clear"),
        [`a cell is left to be cleared (${s.cursor} of ${s.cells})`, s.cursor < s.cells]],
      take: (s) => {
        if (s.colours[s.cursor] === "black") s.colours[s.cursor] = "white";
        s.cursor += 1;
      },
      says: (s) => {
        const found = s.colours[s.cursor];
        return `Clearing comes to ${sayCell(s.cursor)}: it is ${sayColour(found)}, and `
          + `${found === "black" ? "becomes white" : "stays so"}.`;
      },
    },
    anchor: {
      needs: (s) => [atStage(s, "sync2"), answers(s, "second-handshake")],
      take: (s) => { shade(s, 0); s.anchorMarked = true; },
      says: (s) => `The collector marks the anchor: it is ${s.colours[0]}`
        + `${s.colours[0] === "white" ? ", and becomes gray" : ""}.`,
    },
    see: {
      words: ["c"],
      needs: (s, e) => [atStage(s, "trace"), answers(s),
        ["no cell is under scan", s.scan === null], [`there is a cell ${e.c}`, e.c < s.cells]],
      take: (s, e) => {
        if (s.cursor === s.cells && !s.clean) { s.cursor = 0; s.clean = true; }
        if (s.colours[e.c] === "gray") {
          s.clean = false;
          s.scan = { cell: e.c, next: 0, child: null };
        } else if (e.c === s.cursor) {
          s.cursor += 1;
        }
      },
      says: (s, e) => {
        const again = s.cursor === s.cells && !s.clean ? "A new pass begins. " : "";
        return `${again}The collector looks at ${sayCell(e.c)}: it is ${sayColour(s.colours[e.c])}`
          + `${s.colours[e.c] === "gray" ? ", so it is scanned." : "."}`;
      },
    },
    scan: {
      needs: (s) => [scanning(s),
        ["one of its fields 0 to 4 is still to be read", s.scan !== null && s.scan.next < 5],
        ["the child found last is shaded", s.scan !== null && s.scan.child === null]],
      take: (s) => {
        const found = cellOf(s.rows[s.scan.cell][s.scan.next]);
        if (found === null) s.scan.next += 1; else s.scan.child = found;
      },
      says: (s) => {
        if (!s.scan) return "The collector reads the next field of a cell under scan.";
        const found = s.rows[s.scan.cell][s.scan.next] || "-";
        return `The collector reads field ${s.scan.next} of ${sayCell(s.scan.cell)} and finds `
          + `${say(found)}${cellOf(found) === null ? "" : ", the child"}.`;
      },
    },
    shade: {
      needs: (s) => [scanning(s),
        ["a child was found and is not shaded yet", s.scan !== null && s.scan.child !== null]],
      take: (s) => { shade(s, s.scan.child); s.scan.child = null; s.scan.next += 1; },
      says: (s) => {
        if (!s.scan || s.scan.child === null) return "The collector shades a child.";
        const found = s.colours[s.scan.child];
        return `The collector shades the child, ${sayCell(s.scan.child)}: it is ${found}, and `
          + `${found === "white" ? "becomes gray" : "stays so"}.`;
      },
    },
    blacken: {
      needs: (s) => [scanning(s),
        [`each of its fields 0 to 4 was read (${s.scan ? s.scan.next : 0} of 5)`,
          s.scan !== null && s.scan.next === 5, "fifth-field"]],
      take: (s) => { s.colours[s.scan.cell] = "black"; s.scan = null; },
      says: (s) => `The scan of ${s.scan ? sayCell(s.scan.cell) : "a cell"} is done: it becomes `
        + "black.",
    },
    sweep: {
      needs: (s) => [atStage(s, "sweep"),
        [`a cell is left to be swept (${s.position} of ${s.cells})`, s.position < s.cells],
        ["the cell at the position was not looked at yet", s.sweep === "fresh"],
        ["it is not gray", s.colours[s.position] !== "gray"]],
      take: (s) => {
        const found = s.colours[s.position];
        s.sweep = { blue: "done", white: "wiping", black: "black found" }[found];
        s.wiped = 0;
      },
      says: (s) => {
        const found = s.colours[s.position];
        const then = { blue: "free already", white: "white, so it will be wiped and freed",
          black: "black, so it will become white", gray: "gray" }[found];
        return `The sweep comes to ${sayCell(s.position)}: it is ${then}.`;
      },
    },
    wipe: {
      needs: (s) => [["the cell at the position is being wiped", s.sweep === "wiping"],
        [`one of its six fields is left (${s.wiped} of 6)`, s.wiped < 6]],
      take: (s) => { set(s, s.position, s.wiped, "-"); s.wiped += 1; },
      says: (s) => `The sweep sets field ${s.wiped} of ${sayCell(s.position)} to null.`,
    },
    free: {
      needs: (s) => [["the cell at the position is being wiped", s.sweep === "wiping"],
        [`all six fields are null (${s.wiped} of 6)`, s.wiped === 6]],
      take: (s) => {
        s.colours[s.position] = "blue";
        s.freed[s.position] += 1;
        s.sweep = "done";
      },
      says: (s) => `The sweep frees ${sayCell(s.position)}.`,
    },
    whiten: {
      needs: (s) => [["the cell at the position was found black", s.sweep === "black found"]],
      take: (s) => { s.colours[s.position] = "white"; s.sweep = "done"; },
      says: (s) => `The sweep makes ${sayCell(s.position)} white: it stays.`,
    },
    advance: {
      needs: (s) => [atStage(s, "sweep"),
        [`a cell is at the position (${s.position} of ${s.cells})`, s.position < s.cells],
        ["the sweep is done with it", s.sweep === "done"]],
      take: (s) => { s.position += 1; s.sweep = "fresh"; },
      says: (s) => `The sweep moves on from ${sayCell(s.position)}.`,
    },
  };
})();
