"use strict";
const LETTERS = { blue: "f", white: "w", gray: "g", black: "b" };

// All steps at a glance: a column for each, and the one that is shown. It is drawn once a run and
// width.
const score = { run: null, room: 0, wide: 0, left: 84, frame: null };
function showScore() {
  const room = Math.max(get("score").clientWidth - 40 - score.left, 300);
  if (score.run !== run() || score.room !== room) drawScore(room);
  const x = score.left + (shown.at - 1) * score.wide;
  score.frame.setAttribute("x", x);
  score.frame.setAttribute("visibility", shown.at > 0 ? "visible" : "hidden");
  const from = get("score").scrollLeft;
  if (x < from + score.left || x > from + room) get("score").scrollLeft = x - room / 2;
}

function drawScore(room) {
  const it = run();
  const many = steps(it);
  const { left } = score;
  const wide = Math.max(Math.min(room / Math.max(many, 1), 22), 5);
  Object.assign(score, { run: it, room, wide });
  const parts = [];
  let y = 0;
  const label = (words, high) => {
    parts.push(draw("text", { x: 0, y: y + high / 2 + 4, class: "dim" }, words));
  };
  const stretches = (of, high, put) => {
    let at = 1;
    while (at <= it.steps.length) {
      let end = at;
      while (end < it.steps.length && of(end + 1) === of(at)) end += 1;
      put(left + (at - 1) * wide, (end - at + 1) * wide, of(at));
      at = end + 1;
    }
    y += high;
  };
  const ticks = (who, high) => it.steps.forEach((step, k) => {
    const own = Model.OF_MUTATOR.includes(step.event.kind) ? step.event.i : null;
    if (own === who) {
      const tick = draw("rect", { x: left + k * wide + wide / 2 - 1.5, y: y + 4, width: 3,
        height: high - 8, class: "tick" });
      tick.append(draw("title", {}, step.line));
      parts.push(tick);
    }
  });
  label("stage", 18);
  stretches((at) => it.steps[at - 1].after.stage, 18, (x, w, stage) => {
    parts.push(draw("rect", { x, y, width: w, height: 18, class: `edge s-${stage}` }));
    if (w > stage.length * 7 + 4) parts.push(draw("text", { x: x + 4, y: y + 13 }, stage));
  });
  label("collector", 16);
  ticks(null, 16);
  y += 18;
  const mutators = it.opening.who.slice(0, 8);
  mutators.forEach((_, i) => {
    label(`mutator ${i}`, 16);
    stretches((at) => {
      const m = it.steps[at - 1].after.who[i];
      return `${m.status} ${m.inside}`;
    }, 0, (x, w, found) => {
      const [status, inside] = found.split(" ");
      parts.push(draw("rect", { x, y, width: w, height: 16,
        class: inside === "true" ? `edge s-${status}` : "away" }));
    });
    ticks(i, 16);
    y += 19;
  });
  const changes = (c) => it.steps.some((step) => step.before.colours[c] !== step.after.colours[c]);
  const cells = it.opening.colours.flatMap((_, c) =>
    (it.opening.cells <= 12 || changes(c) ? [c] : [])).slice(0, 24);
  const lost = it.steps.map((step, k) =>
    (it.lost !== null && k + 1 >= it.lost ? Model.lost(step.after) : []));
  y += 3;
  for (const c of cells) {
    label(c === 0 ? "anchor" : `cell ${c}`, 14);
    stretches((at) => (lost[at - 1].includes(c) ? "lost" : it.steps[at - 1].after.colours[c]), 17,
      (x, w, colour) => {
        parts.push(draw("rect", { x, y, width: w, height: 14, class: `edge c-${colour}` }));
        const words = colour === "lost" ? "lost" : w > 40 ? { blue: "free" }[colour] || colour
          : LETTERS[colour];
        if (w >= words.length * 7) {
          parts.push(draw("text", { x: x + 3, y: y + 11,
            class: colour === "black" || colour === "lost" ? "onblack" : "onlight" }, words));
        }
      });
  }
  if (it.refused) {
    parts.push(draw("text", { x: left + it.steps.length * wide + wide / 2 - 3, y: 13,
      class: "refused" }, "\u2717"));
  }
  score.frame = draw("rect", { x: left, y: 0.75, width: wide, height: y - 2, class: "now" });
  parts.push(score.frame);
  const picture = draw("svg", { width: left + Math.max(many, 1) * wide + 12, height: y });
  picture.append(...parts);
  picture.addEventListener("click", (event) => {
    goTo(Math.ceil((event.clientX - picture.getBoundingClientRect().left - left) / wide));
  });
  get("score").replaceChildren(picture);
}
