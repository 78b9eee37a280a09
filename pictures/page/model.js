"use strict";
// The event table, as the page plays it: A MODEL OF THIS PAGE, NOT THE PROVED PROGRAM. Nothing is
// proved of it. Where no rule is left out its cells are the proved program's at every step of every
// schedule of examples/, which .ci/page tests. It is here for what a replay does not show (held
// lists, modes, a write in the making) and to play the table without one of its rules.
const Model = (() => {
  const { STAGES, HANDSHAKES, REQUESTED, cellOf, say, sayCell, large, opening, copy, marked,
    barrier } = State;
  const EVENTS = { ...MutatorEvents, ...CollectorEvents };
  const OF_MUTATOR = Object.keys(MutatorEvents);

  // What the words of a line are, one after the other.
  const MEANT = { place: "place", f: "field", old: "old value", new: "new value", c: "cell",
    value: "value", as: "kind", n: "places kept", p: "from place", k: "how many", stage: "stage",
    on: "on or off", over: "over" };
  function words(e) {
    const given = (EVENTS[e.kind].words || []).filter((name) => e[name] !== undefined);
    return [...(e.i === undefined ? [] : ["mutator"]), ...given.map((name) => MEANT[name])];
  }

  const number = (word) => Number(word);
  const value = (word) => {
    if (word === "-") return word;
    // a number may begin with zeros, and be past what a Number holds
    return word[0] + String(BigInt(word.slice(1)));
  };

  // One line as an event; its words are those of a schedule without faults.
  function parse(line) {
    const [kind, ...words] = line.split(" ");
    const e = { kind, line };
    if (OF_MUTATOR.includes(kind) || kind === "poll" || kind === "out") e.i = number(words.shift());
    for (const name of EVENTS[kind].words || []) {
      const word = words.shift();
      if (word === undefined) break;
      if (["old", "new", "value"].includes(name)) e[name] = value(word);
      else if (["as", "stage", "on", "over"].includes(name)) e[name] = word;
      else e[name] = number(word);
    }
    if (kind === "keep") {
      if (e.k === undefined) e.k = e.p === undefined ? 0 : 1;
      if (e.p === undefined) e.p = 0;
    }
    return e;
  }

  // The conditions: what each says, whether it holds, and whether it is the rule that is left out.
  function needs(s, e, without) {
    return EVENTS[e.kind].needs(s, e, without).map(([words, holds, rule]) => (
      { words, holds, rule, left: rule !== undefined && rule === without }));
  }

  function take(s, e, without) {
    const after = copy(s);
    EVENTS[e.kind].take(after, e, without);
    return after;
  }

  // The next event of the plain collector, where it has one. It polls a mutator for which it is to
  // answer first; `polled` is the one that it has just polled.
  function plain(s, polled, without) {
    const waits = s.answered.indexOf(false);
    if (HANDSHAKES.includes(s.stage) && waits >= 0) {
      const m = s.who[waits];
      if (m.status === REQUESTED[s.stage]) return `poll ${waits}`;
      if (m.inside && without !== "answer-in") return null;
      if (polled !== waits) return `poll ${waits}`;
      return m.over ? `out ${waits} over` : `out ${waits}`;
    }
    switch (s.stage) {
      case "idle": return "post sync1";
      case "sync1": return "post clear";
      case "clear": return s.cursor < s.cells ? "clear" : "post sync2";
      case "sync2": return s.anchorMarked ? "post trace" : "anchor";
      case "trace":
        if (s.scan) {
          if (s.scan.child !== null) return "shade";
          return s.scan.next < 5 ? "scan" : "blacken";
        }
        if (s.cursor === s.cells) return s.clean ? "post sweep" : "see 0";
        return `see ${s.cursor}`;
      default:
        if (s.position === s.cells) return "post idle";
        if (s.sweep === "wiping") return s.wiped < 6 ? "wipe" : "free";
        return { fresh: "sweep", "black found": "whiten", done: "advance" }[s.sweep];
    }
  }

  // By cell: how it is reached, or nothing. A way is the mutator and the place where it begins, or
  // the anchor, and the fields that it goes by.
  function reach(s) {
    const ways = s.colours.map(() => null);
    const todo = [];
    const go = (cell, way) => {
      if (ways[cell] === null) { ways[cell] = way; todo.push(cell); }
    };
    go(0, ["the anchor is the root of all"]);
    s.who.forEach((m, i) => m.held.forEach((place, k) => {
      go(place.cell, [`mutator ${i} holds ${sayCell(place.cell)}, at place ${k}`]);
    }));
    while (todo.length) {
      const from = todo.shift();
      for (let f = 0; f < 5; f += 1) {
        const to = cellOf(s.rows[from][f]);
        if (to !== null) {
          const way = ways[from];
          const step = `field ${f} of ${sayCell(from)} names ${sayCell(to)}`;
          go(to, [...(from === 0 ? [] : way), step]);
        }
      }
    }
    return ways;
  }

  // The cells that can be reached and are free: lost objects.
  const lost = (s, ways = reach(s)) =>
    s.colours.flatMap((colour, c) => (colour === "blue" && ways[c] !== null ? [c] : []));

  // The rows of all cells at first and after each event, of what `play` knows of a replay.
  function rowsOf({ first, changes }) {
    const rows = [first];
    for (const changed of changes) {
      const before = rows[rows.length - 1];
      const cells = Object.entries(changed);
      const after = cells.length ? [...before] : before;
      for (const [cell, to] of cells) after[cell] = to;
      rows.push(after);
    }
    return rows;
  }

  const row = (s, c) => `cell ${c} ${s.colours[c]} ${s.rows[c].join(" ")} freed ${s.freed[c]}`;

  // Plays a schedule, with all rules or without one: the steps, each with the state before and
  // after, the step that was refused, the text that a replay writes, and the first loss.
  function play(text, without) {
    const run = { steps: [], refused: null, comment: [], text: [], lost: null, head: "" };
    let s = null;
    const step = (line, number, words) => {
      const e = parse(line);
      const asked = needs(s, e, without);
      const it = { line, number, words, event: e, needs: asked, before: s };
      it.can = asked.every((need) => need.holds || need.left);
      // an event of what is not there has no more to tell
      it.says = it.can || asked.slice(0, -1).every((need) => need.holds)
        ? EVENTS[e.kind].says(s, e, without) : "";
      if (!it.can) {
        run.refused = it;
        return false;
      }
      s = take(s, e, without);
      it.after = s;
      run.steps.push(it);
      // a cell that can be reached becomes free by this event alone
      if (e.kind === "free" && run.lost === null && lost(s).length) run.lost = run.steps.length;
      return true;
    };
    const steps = (words, number) => {
      if (words[0] === "show") {
        if (Number(words[1]) >= s.cells) {
          run.refused = { line: words.join(" "), number, before: s, can: false, says: "",
            event: { kind: "show" },
            needs: [{ words: `there is a cell ${words[1]}`, holds: false, left: false }] };
          return false;
        }
        run.text.push(row(s, Number(words[1])));
        return true;
      }
      if (words[0] !== "plain") return step(words.join(" "), number, null);
      let polled = null;
      for (;;) {
        const line = plain(s, polled, without);
        if (line === null) {
          run.refused = { line: "plain", number, before: s, can: false, event: { kind: "plain" },
            says: "The collector has no next event by itself.",
            needs: [{ words: `mutator ${s.answered.indexOf(false)}, which is in, has answered`,
              holds: false, left: false }] };
          return false;
        }
        if (!step(line, number, "plain")) return false;
        polled = line.startsWith("poll") ? Number(line.split(" ")[1]) : null;
        if (line.startsWith("post")) return true;
      }
    };
    const lines = text.split("\n").map((line) => line.replace(/\r$/, ""));
    for (let at = 0; at < lines.length; at += 1) {
      const line = lines[at];
      if (line.startsWith("#")) run.comment.push(line.slice(1).trim());
      if (line !== "" && !line.startsWith("#")) {
        const words = line.split(" ");
        if (words[0] === "core") {
          run.head = line;
          s = opening(...words.slice(1).map(number));
          run.opening = s;
        } else if (!steps(words, at + 1)) {
          run.text.push(`not now ${at + 1}`);
          break;
        }
      }
    }
    run.last = s;
    run.text.push(`done ${run.steps.length}`,
      `free ${s.colours.filter((colour) => colour === "blue").length}`);
    return run;
  }

  return { STAGES, HANDSHAKES, REQUESTED, OF_MUTATOR, words, play, reach, lost, row, rowsOf,
    barrier, marked, say, sayCell, large };
})();
