"use strict";
// Arrows: from fields and places to the cells that they name.
function showArrows() {
  const heap = get("heap").getBoundingClientRect();
  const box = (it) => {
    const r = it.getBoundingClientRect();
    return { l: r.left - heap.left - 1, r: r.right - heap.left - 1, t: r.top - heap.top - 1,
      b: r.bottom - heap.top - 1, y: (r.top + r.bottom) / 2 - heap.top - 1,
      x: (r.left + r.right) / 2 - heap.left - 1 };
  };
  const parts = ["to", "held", "bad"].map((kind) => {
    const tip = draw("marker", { id: `tip-${kind}`, viewBox: "0 0 8 8", refX: 7, refY: 4,
      markerWidth: 8, markerHeight: 8, markerUnits: "userSpaceOnUse", orient: "auto" });
    tip.append(draw("path", { d: "M0 0L8 4L0 8z" }));
    return tip;
  });
  const above = new Map();
  const line = (kind, d, bad) => parts.push(draw("path", { d, class: `${kind}${bad ? " bad" : ""}`,
    "marker-end": `url(#tip-${bad ? "bad" : kind})` }));
  // the next free spot on the upper edge of a card, from its middle to the right
  const spot = (card, c) => {
    const k = above.get(c) || 0;
    above.set(c, k + 1);
    return card.x + [0, 16, -16, 32, -32, 48, -48][k % 7];
  };
  for (const it of get("heap").querySelectorAll("[data-to]")) {
    const c = it.dataset.to;
    const goal = get("cells").querySelector(`[data-cell="${c}"]`);
    if (!goal) continue;
    const bad = goal.classList.contains("lost");
    const from = box(it);
    const to = box(goal);
    if (it.classList.contains("place")) {
      const x = spot(to, c);
      line("held", `M${from.x} ${from.b}C${from.x} ${from.b + 34} ${x} ${to.t - 34} `
        + `${x} ${to.t - 2}`, bad);
      continue;
    }
    const card = box(it.closest(".cell"));
    const right = to.l >= card.r;
    const x = right ? card.r : card.l;
    const side = right ? 1 : -1;
    const head = to.t + 13;
    if (goal === it.closest(".cell")) {
      const far = card.r + 30;
      line("to", `M${card.r} ${from.y}C${far} ${from.y} ${far} ${head} ${card.r + 2} ${head}`, bad);
    } else if (Math.abs(to.t - card.t) < 4 && (right ? to.l - card.r : card.l - to.r) < 80) {
      const end = right ? to.l - 1 : to.r + 1;
      line("to", `M${x} ${from.y}C${x + side * 26} ${from.y} ${end - side * 26} ${head} `
        + `${end} ${head}`, bad);
    } else {
      const end = spot(to, c);
      const gap = x + side * 17;
      const high = to.t - 22;
      line("to", `M${x} ${from.y}Q${gap} ${from.y} ${gap} ${from.y - 14 * Math.sign(from.y - high)}`
        + `L${gap} ${high + 14 * Math.sign(from.y - high)}`
        + `Q${gap} ${high} ${gap + Math.sign(end - gap) * 14} ${high}`
        + `L${end - Math.sign(end - gap) * 10} ${high}Q${end} ${high} ${end} ${high + 10}`
        + `L${end} ${to.t - 2}`, bad);
    }
  }
  const defs = draw("defs", {});
  defs.append(...parts.slice(0, 3));
  get("arrows").replaceChildren(defs, ...parts.slice(3));
}
