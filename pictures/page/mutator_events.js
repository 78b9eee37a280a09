"use strict";
// The events of a mutator: what each needs, what it does, and a sentence of that. A part of the
// page's model, which is not the proved program (model.js).
const MutatorEvents = (() => {
  const { REQUESTED, cellOf, say, sayCell, set, mutator, target, holds, marked, isRaw, isBox,
    barrier, next, born, unmark, spend, hold, shade } = State;

  // The conditions that many events share. A condition is what it says, whether it holds, and the
  // rule that it is of, where that can be left out.
  const isIn = (s, e) => [`mutator ${e.i} is in`, mutator(s, e.i).inside];
  const noPending = (s, e) => ["it has no store begun", !mutator(s, e.i).pending];
  const hasMode = (s, e) => ["it has looked, and so has a mode", mutator(s, e.i).mode !== null];
  const isPlace = (s, e) =>
    [`it has a place ${e.place}`, e.place < mutator(s, e.i).held.length];
  const isPayload = (s, e) => [`field ${e.f} is one of 0 to 4`, e.f <= 4];
  const hasRoom = (s, e) =>
    [`it may hold one cell more (it holds ${mutator(s, e.i).held.length} of ${s.room})`,
      mutator(s, e.i).held.length < s.room];
  const names = (s, e, value, what) => (cellOf(value) === null
    ? [`the ${what} value, ${say(value)}, names no cell`, true]
    : [`it holds ${sayCell(cellOf(value))}, the ${what} value`, holds(mutator(s, e.i), value)]);
  const isSealed = (s, value) => (cellOf(value) === null ? []
    : [[`${sayCell(cellOf(value))} is sealed`, !isRaw(s, cellOf(value))]]);

  // The marks that stand before a write.
  function marksStand(s, e, old, wanted) {
    const m = mutator(s, e.i);
    const kind = barrier(m);
    const markOf = (value, what, why, rule) => (cellOf(value) === null
      ? [`the ${what} value, ${say(value)}, needs no mark`, true, rule]
      : [`${sayCell(cellOf(value))}, the ${what} value, is marked, ${why}`, marked(m, value),
        rule]);
    if (kind === "old") return [markOf(old, "old", "as the collector traces", "old-value")];
    if (kind === "nothing") return [];
    return [markOf(old, "old", `as it is in ${m.status}`),
      markOf(wanted, "new", `as it is in ${m.status}`, "new-value")];
  }

  // By kind of event: its words after the mutator's number, its conditions, what it does, and a
  // sentence of that. All of them are told of the state before.
  return {
    begin: {
      needs: (s, e) => [
        [`mutator ${e.i} is out`, !mutator(s, e.i).inside],
        ["it is not over", !mutator(s, e.i).over]],
      take: (s, e) => {
        const m = s.who[e.i];
        m.inside = true;
        m.held = [{ cell: 0, marked: false }];
        m.mode = null;
      },
      says: (s, e) => `Mutator ${e.i} comes in, with the status that it finds `
        + `(${mutator(s, e.i).status}). It holds the anchor, and nothing else.`,
    },
    look: {
      needs: (s, e) => [isIn(s, e), noPending(s, e)],
      take: (s, e) => {
        unmark(s.who[e.i]);
        s.who[e.i].mode = { stage: s.stage, position: s.position };
      },
      says: (s, e) => `Mutator ${e.i} loads the control word: the stage is ${s.stage}`
        + `${s.stage === "sweep" ? `, the position ${s.position}` : ""}. That is its mode from now `
        + "on, however old it gets, and no place is marked any more.",
    },
    read: {
      words: ["place", "f"],
      needs: (s, e) => [isIn(s, e), isPlace(s, e), isPayload(s, e), hasRoom(s, e)],
      take: (s, e) => hold(s.who[e.i], s.rows[target(s.who[e.i], e.place)][e.f]),
      says: (s, e) => {
        const c = target(mutator(s, e.i), e.place);
        const found = s.rows[c][e.f];
        return `Mutator ${e.i} reads field ${e.f} of ${sayCell(c)} and finds ${say(found)}`
          + `${cellOf(found) === null ? "" : ", which it holds from now on"}.`;
      },
    },
    fetch: {
      words: ["place", "f"],
      needs: (s, e) => {
        const m = mutator(s, e.i);
        return [isIn(s, e), noPending(s, e), [...hasMode(s, e), "store-mode"],
          ["it is not in sync2 with a look that found the stage sync2",
            !(m.mode && m.status === "sync2" && m.mode.stage === "sync2"), "late-store"],
          isPlace(s, e), isPayload(s, e),
          [`${sayCell(target(m, e.place))} is a box`, isBox(s, target(m, e.place))], hasRoom(s, e)];
      },
      take: (s, e) => {
        const m = s.who[e.i];
        const found = s.rows[target(m, e.place)][e.f];
        hold(m, found);
        m.pending = { place: e.place, f: e.f, found };
      },
      says: (s, e) => {
        const c = target(mutator(s, e.i), e.place);
        return `Mutator ${e.i} begins a store into field ${e.f} of ${sayCell(c)}, and reads `
          + `${say(s.rows[c][e.f])} there. The store is pending from here on.`;
      },
    },
    mark: {
      words: ["place"],
      needs: (s, e) => [isIn(s, e), isPlace(s, e),
        ["a write by its mode has something to mark", barrier(mutator(s, e.i)) !== "nothing"]],
      take: (s, e) => {
        const c = target(s.who[e.i], e.place);
        shade(s, c);
        s.who[e.i].held.forEach((place) => { if (place.cell === c) place.marked = true; });
      },
      says: (s, e) => {
        const c = target(mutator(s, e.i), e.place);
        const found = s.colours[c];
        return `Mutator ${e.i} marks ${sayCell(c)}, at place ${e.place}: it is ${found}, `
          + (found === "white" ? "and becomes gray." : "and stays so; the place counts as marked.");
      },
    },
    write: {
      words: ["place", "f", "old", "new"],
      needs: (s, e) => {
        const c = target(mutator(s, e.i), e.place);
        return [isIn(s, e), hasMode(s, e), noPending(s, e), isPlace(s, e), isPayload(s, e),
          [`${sayCell(c)} is a box`, isBox(s, c)], names(s, e, e.old, "old"),
          names(s, e, e.new, "new"), ...isSealed(s, e.new), ...marksStand(s, e, e.old, e.new)];
      },
      take: (s, e) => {
        const c = target(s.who[e.i], e.place);
        if (s.rows[c][e.f] === e.old) set(s, c, e.f, e.new);
        spend(s.who[e.i]);
      },
      says: (s, e) => {
        const c = target(mutator(s, e.i), e.place);
        const same = s.rows[c][e.f] === e.old;
        return `Mutator ${e.i} exchanges field ${e.f} of ${sayCell(c)}: ${say(e.old)} for `
          + `${say(e.new)}${same ? "." : `. It finds ${say(s.rows[c][e.f])}, so nothing changes.`}`
          + " Its mode and its marks are spent.";
      },
    },
    store: {
      words: ["new"],
      needs: (s, e) => {
        const m = mutator(s, e.i);
        const old = m.pending ? m.pending.found : "-";
        return [isIn(s, e), ["it has a store begun", m.pending !== null],
          names(s, e, e.new, "new"), ...isSealed(s, e.new), ...marksStand(s, e, old, e.new)];
      },
      take: (s, e) => {
        const m = s.who[e.i];
        set(s, target(m, m.pending.place), m.pending.f, e.new);
        spend(m);
      },
      says: (s, e) => {
        const m = mutator(s, e.i);
        if (!m.pending) return `Mutator ${e.i} ends a store by ${say(e.new)}.`;
        const c = target(m, m.pending.place);
        return `Mutator ${e.i} ends its store: field ${m.pending.f} of ${sayCell(c)} becomes `
          + `${say(e.new)}, whatever stands there (now ${say(s.rows[c][m.pending.f])}). Its mode `
          + "and its marks are spent.";
      },
    },
    claim: {
      words: ["c"],
      needs: (s, e) => [isIn(s, e), hasMode(s, e), noPending(s, e),
        [`there is a cell ${e.c}`, e.c < s.cells], hasRoom(s, e)],
      take: (s, e, without) => {
        const m = s.who[e.i];
        if (s.colours[e.c] !== "blue") return;
        s.colours[e.c] = born(m, e.c, without);
        m.held.push({ cell: e.c, marked: false });
        m.mode = null;
      },
      says: (s, e, without) => {
        const m = mutator(s, e.i);
        if (s.colours[e.c] !== "blue") {
          return `Mutator ${e.i} tries ${sayCell(e.c)}, but it is not free: nothing changes.`;
        }
        const colour = born(m, e.c, without);
        const left = colour === born(m, e.c) ? "" : " (the rule that is left out says black)";
        return `Mutator ${e.i} claims cell ${e.c}, which is free: it becomes ${colour}${left}, by `
          + `its status (${m.status}) and the stage that its look found (${m.mode.stage}`
          + `${m.mode.stage === "sweep" ? `, position ${m.mode.position}` : ""}). Its mode is `
          + "spent.";
      },
    },
    fill: {
      words: ["place", "f", "value"],
      needs: (s, e) => {
        const c = target(mutator(s, e.i), e.place);
        return [isIn(s, e), isPlace(s, e),
          [`${sayCell(c)} is raw`, isRaw(s, c), "fill-raw"], isPayload(s, e),
          names(s, e, e.value, "new"), ...isSealed(s, e.value),
          [`field ${e.f} of ${sayCell(c)} names no cell yet`, cellOf(s.rows[c][e.f]) === null,
            "fill-cell"]];
      },
      take: (s, e) => set(s, target(s.who[e.i], e.place), e.f, e.value),
      says: (s, e) => `Mutator ${e.i} fills field ${e.f} of `
        + `${sayCell(target(mutator(s, e.i), e.place))} with ${say(e.value)}. No mark is needed.`,
    },
    seal: {
      words: ["place", "as"],
      needs: (s, e) => {
        const c = target(mutator(s, e.i), e.place);
        return [isIn(s, e), isPlace(s, e), [`${sayCell(c)} is raw`, isRaw(s, c)]];
      },
      take: (s, e) => {
        set(s, target(s.who[e.i], e.place), 5, e.as === "record" ? "=1" : "=2");
      },
      says: (s, e) => `Mutator ${e.i} seals ${sayCell(target(mutator(s, e.i), e.place))}: it is a `
        + `${e.as} from now on.`,
    },
    answer: {
      needs: (s, e, without) => {
        const m = mutator(s, e.i);
        const wanted = next(s, m, without);
        const open = m.held.flatMap((it, k) => (it.marked ? [] : [k]));
        const found = [isIn(s, e), noPending(s, e),
          [`its look found a stage that asks for ${wanted}`,
            m.mode !== null && REQUESTED[m.mode.stage] === wanted]];
        if (wanted === "async") {
          found.push([`each of its places is marked, as it goes back to async`
            + `${open.length ? ` (not marked: ${open.join(", ")})` : ""}`, open.length === 0,
          "roots"]);
        }
        return found;
      },
      take: (s, e, without) => {
        s.who[e.i].status = next(s, s.who[e.i], without);
        spend(s.who[e.i]);
      },
      says: (s, e, without) => `Mutator ${e.i} answers the handshake: its status goes from `
        + `${mutator(s, e.i).status} to ${next(s, mutator(s, e.i), without)}. Its mode and its `
        + "marks are spent.",
    },
    keep: {
      words: ["n", "p", "k"],
      needs: (s, e) => {
        const many = mutator(s, e.i).held.length;
        return [isIn(s, e), noPending(s, e),
          [`it keeps one place at least, and no more than its ${many}`, e.n >= 1 && e.n <= many],
          ["the places that it keeps besides are there", e.p + e.k <= many],
          [`they fit into its room of ${s.room}`, e.n + e.k <= s.room]];
      },
      take: (s, e) => {
        const m = s.who[e.i];
        const besides = m.held.slice(e.p, e.p + e.k).map((place) => ({ ...place }));
        m.held = [...m.held.slice(0, e.n), ...besides];
      },
      says: (s, e) => `Mutator ${e.i} keeps its first ${e.n === 1 ? "place" : `${e.n} places`}`
        + `${e.k ? ` and, after ${e.n === 1 ? "it" : "them"}, ${e.k} from place ${e.p} on` : ""}, `
        + "and drops the rest.",
    },
    end: {
      needs: (s, e) => [isIn(s, e)],
      take: (s, e) => {
        const m = s.who[e.i];
        m.inside = false;
        m.held = [];
        m.mode = null;
        m.pending = null;
      },
      says: (s, e) => `Mutator ${e.i} goes out, and drops all that it holds.`,
    },
    over: {
      needs: (s, e) => [
        [`mutator ${e.i} is out`, !mutator(s, e.i).inside],
        ["it is not over yet", !mutator(s, e.i).over]],
      take: (s, e) => { s.who[e.i].over = true; },
      says: (s, e) => `Mutator ${e.i} is over: it never comes in again.`,
    },
  };
})();
