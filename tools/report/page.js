"use strict";
// Shows one state of a string in its section: what holds, and the marks in the code and in the graphs.
const SIGNS = { x: "✖", n: "▶", e: "■" };
let active = null;

function show(section, wanted) {
  const steps = section.steps, at = Math.max(0, Math.min(wanted, steps.length - 1));
  section.at = at;
  for (const it of section.querySelectorAll("[data-s]")) it.removeAttribute("data-s");
  for (const line of section.querySelectorAll(".line")) { line.classList.remove("now", "stop"); line.querySelector(".sign").textContent = ""; }
  const states = {};
  for (let k = 0; k <= at; k++) for (const [name, state] of Object.entries(steps[k].marks)) states[name] = k < at && state !== "x" ? "was" : state;
  for (const it of section.querySelectorAll("[data-m]")) {
    const state = states[it.dataset.m];
    if (!state) continue;
    it.dataset.s = state;
    const line = it.closest(".line");
    if (line && SIGNS[state]) {
      line.querySelector(".sign").textContent = SIGNS[state];
      line.classList.add(state === "x" ? "stop" : "now");
    }
  }
  section.querySelector(".at").textContent = `state ${at} of ${steps.length - 1}`;
  section.querySelector(".said").innerHTML = section.querySelector(`template[data-state="${at}"]`).innerHTML;
  const buttons = section.querySelectorAll(".stepper button");
  buttons[0].disabled = buttons[1].disabled = at === 0;
  buttons[2].disabled = buttons[3].disabled = at === steps.length - 1;
}

function nearest(sections) {
  const middle = innerHeight / 2;
  const far = it => { const box = it.getBoundingClientRect(); return box.top > middle ? box.top - middle : Math.max(0, middle - box.bottom); };
  return [...sections].sort((one, other) => far(one) - far(other))[0];
}

addEventListener("DOMContentLoaded", () => {
  for (const it of document.querySelectorAll(".picture")) it.scrollLeft = (it.scrollWidth - it.clientWidth) / 2;
  const sections = document.querySelectorAll("section.steps");
  for (const section of sections) {
    section.steps = JSON.parse(section.querySelector("script[type='application/json']").textContent);
    section.querySelector(".stepper").hidden = false;
    const moves = [() => 0, () => section.at - 1, () => section.at + 1, () => section.steps.length - 1];
    section.querySelectorAll(".stepper button").forEach((button, k) => button.addEventListener("click", () => { active = section; show(section, moves[k]()); }));
    section.addEventListener("pointerdown", () => { active = section; });
    section.addEventListener("focusin", () => { active = section; });
    show(section, 0);
  }
  addEventListener("keydown", event => {
    const move = { ArrowLeft: -1, ArrowRight: 1 }[event.key];
    if (!move || !sections.length || event.altKey || event.ctrlKey || event.metaKey || event.shiftKey) return;
    const scrolls = document.activeElement.closest(".wide, .picture");
    if (scrolls && scrolls.scrollWidth > scrolls.clientWidth) return;
    const box = active && active.getBoundingClientRect();
    const section = box && box.bottom > 0 && box.top < innerHeight ? active : nearest(sections);
    show(section, section.at + move);
    event.preventDefault();
  });
});
addEventListener("beforeprint", () => document.querySelectorAll("details").forEach(it => { it.open = true; }));
