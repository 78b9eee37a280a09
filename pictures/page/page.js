"use strict";
// The page as a whole: what keys and buttons do.
function show() {
  const it = run();
  const many = steps(it);
  shown.at = Math.min(Math.max(shown.at, 0), many);
  const s = stateAt(it, shown.at);
  get("slider").max = many;
  get("slider").value = shown.at;
  get("count").textContent = `step ${shown.at} of ${many}`;
  showBanner();
  showEvent();
  showCollector(s);
  showHeap(s);
  showScore();
  showWhy();
}

function goTo(at) {
  shown.at = at;
  show();
}

function choose(schedule, id, at) {
  pause();
  shown.schedule = schedule;
  shown.rule = id;
  shown.at = at;
  showHead();
  showChoice();
  show();
}

function pause() {
  if (shown.timer !== null) clearInterval(shown.timer);
  shown.timer = null;
  get("go").textContent = "play";
}

function play() {
  if (shown.timer !== null) {
    pause();
    return;
  }
  if (shown.at >= steps(run())) shown.at = 0;
  get("go").textContent = "pause";
  shown.timer = setInterval(() => {
    goTo(shown.at + 1);
    if (shown.at >= steps(run())) pause();
  }, 900);
}

// The step of the stage before this one, or of the next.
function stageFrom(by) {
  const it = run();
  let at = shown.at + by;
  while (at > 0 && at < steps(it) && !stepAt(it, at).line.startsWith("post")) at += by;
  return at;
}

const KEYS = {
  ArrowRight: () => goTo(shown.at + 1),
  ArrowLeft: () => goTo(shown.at - 1),
  Home: () => goTo(0),
  End: () => goTo(steps(run())),
  PageDown: () => goTo(stageFrom(1)),
  PageUp: () => goTo(stageFrom(-1)),
  " ": play,
};

function press(event) {
  const { target, key } = event;
  if (!(key in KEYS) || event.ctrlKey || event.altKey || event.metaKey) return;
  if (target.tagName === "SELECT" || (target.tagName === "BUTTON" && key === " ")) return;
  event.preventDefault();
  if (key !== " ") pause();
  KEYS[key]();
}

function start() {
  const asked = new URLSearchParams(location.hash.slice(1));
  const schedule = DATA.findIndex((it) => it.name === asked.get("schedule"));
  const id = RULES.some((it) => it.id === asked.get("rule")) ? asked.get("rule") : "";
  choose(Math.max(schedule, 0), id, Number(asked.get("step")) || 0);
  if (asked.has("selftest")) testItself();
}

document.addEventListener("keydown", press);
get("slider").addEventListener("input", () => { pause(); goTo(Number(get("slider").value)); });
get("schedule").addEventListener("change", () => choose(Number(get("schedule").value), "", 0));
get("rule").addEventListener("change", () => {
  const id = get("rule").value;
  const other = RULES.find((it) => it.id === id);
  const at = other ? DATA.findIndex((it) => it.name === other.schedule) : -1;
  const moves = at >= 0 && at !== shown.schedule && !differs(shown.schedule, id);
  choose(moves ? at : shown.schedule, id, moves ? 0 : shown.at);
});
for (const [id, key] of [["first", "Home"], ["back", "ArrowLeft"], ["on", "ArrowRight"],
  ["final", "End"]]) get(id).addEventListener("click", () => { pause(); KEYS[key](); });
get("go").addEventListener("click", play);
window.addEventListener("resize", show);
window.addEventListener("hashchange", start);
start();
