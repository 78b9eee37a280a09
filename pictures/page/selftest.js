"use strict";
// What stands on the page of each cell, as a replay's text has it.
function written() {
  return [...get("cells").querySelectorAll(".cell")].map((it) => {
    const words = (name) => [...it.querySelectorAll(name)].map((one) => one.textContent);
    const [colour] = words(".colour");
    const fields = words(".v");
    fields[5] = { raw: "-", record: "=1", box: "=2" }[fields[5]] || fields[5];
    return `cell ${it.dataset.cell} ${colour === "free" ? "blue" : colour} ${fields.join(" ")} `
      + words(".freed")[0];
  });
}

// The buttons, the slider and the other keys.
function testButtons(it, test, key) {
  const many = steps(run());
  const goes = (words, at, act) => {
    act();
    test(shown.at === at && get("count").textContent === `step ${at} of ${many}`
      && get("slider").value === String(at), `${it.name}: ${words}`);
  };
  goes("the button to the start", 0, () => get("first").click());
  goes("the button on", Math.min(1, many), () => get("on").click());
  goes("the button back", 0, () => get("back").click());
  goes("the button to the end", many, () => get("final").click());
  goes("the slider", Math.min(2, many), () => {
    get("slider").value = 2;
    get("slider").dispatchEvent(new Event("input"));
  });
  key("Home");
  key("PageDown");
  test(shown.at === many || stepAt(run(), shown.at).line.startsWith("post"),
    `${it.name}: Page Down goes to a stage`);
  key(" ");
  test(shown.timer !== null && get("go").textContent === "pause", `${it.name}: space plays`);
  key(" ");
  test(shown.timer === null && get("go").textContent === "play", `${it.name}: space pauses`);
}

// Steps through each schedule by its keys, and writes what it found at the end of the page.
function testItself() {
  const found = { passed: 0, failed: [], lines: [] };
  const test = (holds, words) => {
    if (holds) found.passed += 1; else found.failed.push(words);
  };
  const key = (name) => {
    document.dispatchEvent(new KeyboardEvent("keydown", { key: name, bubbles: true }));
  };
  DATA.forEach((it, k) => {
    choose(k, "", 0);
    test(disagrees(k) === null, `${it.name}: the model is not the replay`);
    const all = it.cells <= 12;
    const same = () => !all || written().join("\n")
      === rowsAt(shown.at).map((row, c) => `cell ${c} ${row}`).join("\n");
    key("Home");
    for (let at = 0; at < steps(run()); at += 1) {
      test(shown.at === at && same(), `${it.name}: not the replay at step ${at}`);
      key("ArrowRight");
    }
    test(same() && shown.at === steps(run()), `${it.name}: the last step is not the replay`);
    found.lines.push(`schedule ${it.name}`, ...written());
    key("ArrowLeft");
    test(shown.at === Math.max(steps(run()) - 1, 0) && same(), `${it.name}: a step back`);
    key("End");
    test(shown.at === steps(run()), `${it.name}: End`);
    testButtons(it, test, key);
    for (const one of RULES.filter((other) => other.schedule === it.name)) {
      key("Home");
      get("rule").value = one.id;
      get("rule").dispatchEvent(new Event("change"));
      test(shown.rule === one.id && shown.schedule === k, `${one.id}: is chosen`);
      test(get("banner").textContent.includes("not the proved program"), `${one.id}: is not told`);
      test(!get("banner").querySelector(".lost"), `${one.id}: lost at the start`);
      key("End");
      test(get("banner").querySelector(".lost") && get("cells").querySelector(".cell.lost"),
        `${one.id}: nothing is shown as lost`);
      const told = get("banner").querySelector(".lost");
      found.lines.push(`lost ${one.id}: ${told ? told.textContent : ""}`);
    }
  });
  const pre = make("pre");
  pre.id = "selftest";
  pre.textContent = [...found.lines, ...found.failed.map((it) => `failed: ${it}`),
    `page: ${found.passed} passed, ${found.failed.length} failed`].join("\n");
  document.body.append(pre);
}
