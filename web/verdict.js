"use strict";
// Says what all sequences of power cuts come to, as the census counts them.
import { by_id, made } from "./dom.js";
import { counted, sentence_of } from "./sentences.js";
import { cuts_of, fields_of } from "./texts.js";

let last = null; // the last verdict: the question, its class and its parts

// Shows a verdict, or what stands in its place; `is_old` says that it is not of what is asked now.
function fill(name, is_busy, is_old, ...parts) {
  const box = by_id("verdict");
  box.className = `card ${name}${is_old ? " old" : ""}`;
  box.setAttribute("aria-busy", String(is_busy));
  box.inert = is_old;
  box.hidden = false;
  box.replaceChildren(...parts);
}

// Shows the last verdict as what it is, and returns whether there was one. That of this question stays as it is.
export function show_last_verdict(facts) {
  if (last && last.facts !== facts) fill(last.name, false, true, made("p", { class: "of-last" }, "Of the last question:"), ...last.parts);
  return last !== null;
}

export function show_verdict(facts, text, right, go) {
  const counts = fields_of(text), { good, text: sentence, shortest } = sentence_of(counts, facts.setup.bound, right);
  const mark = made("i", { class: `swatch ${good ? "right" : "bad"}`, "aria-hidden": "true" }, good ? "✓" : "✗");
  const census = made("pre", { id: "census", tabindex: 0, role: "group", "aria-label": "The census" }, text);
  const words = made("details", {}, made("summary", {}, "As the program prints it"), census);
  const parts = [made("h2", {}, mark, ` ${sentence}`), made("p", {}, counted(counts, good))];
  if (shortest !== "none") {
    const button = made("button", { type: "button", id: "shortest" }, shortest === "-" ? "no cut at all" : shortest);
    button.addEventListener("click", () => go(cuts_of(shortest)));
    parts.push(made("p", {}, "The shortest that does not: ", button));
  }
  last = { facts, name: good ? "good" : "not", parts: [...parts, words] };
  fill(last.name, false, false, ...last.parts);
}

// In place of a verdict: a text, whether it will change by itself, and what a button does.
function show_instead(text, is_busy, name, act) {
  const button = made("button", { type: "button" }, name);
  button.addEventListener("click", act);
  fill("", is_busy, false, made("h2", {}, text), ...(act ? [button] : []));
}

export function show_counting(stop) {
  show_instead("Counting all sequences of power cuts …", true, "Stop", stop);
}

export function show_stopped(count) {
  show_instead("The sequences of power cuts are not counted.", false, "Count them", count);
}

// Says that something is to be given first.
export function show_wanted(text) {
  show_instead(text, false);
}
