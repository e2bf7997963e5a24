"use strict";
// Shows what power that is lost within an operation leads to: a second line of verdict, and the cases of the chosen operation.
import { by_id, made } from "./dom.js";
import { SIGNS, case_words, torn_sentence } from "./tears.js";

const MARKS = { ...SIGNS, right: "✓", none: "–" };
const swatch = kind => made("i", { class: `swatch ${kind}`, "aria-hidden": "true" }, MARKS[kind]);

// The second line of verdict, or what stands in its place while the program is asked.
export function show_torn(torn, refused, right) {
  const { kind, text } = torn_sentence(torn, refused, right), box = by_id("torn");
  box.className = `card ${kind}`;
  box.setAttribute("aria-busy", "false");
  box.replaceChildren(made("h2", {}, swatch(kind), ` ${text}`));
}

export function show_tearing(text) {
  const box = by_id("torn");
  box.className = "card";
  box.setAttribute("aria-busy", "true");
  box.replaceChildren(made("h2", {}, text));
}

function case_line(row, usual) {
  const { kind, reading, result, type, ops, primary, secondary, next, state } = row;
  const ends = `${result} ${type} ${ops} ${primary} ${secondary} ${next} ${state}`;
  return made("li", {}, swatch(kind), ` ${case_words(row, usual)}: `, made("code", {}, reading), made("span", { class: "ends" }, ` ${ends}`));
}

// The cases of an operation, the worst first; all others end as a cut.
export function torn_cases(torn, number, usual) {
  const rows = torn.rows.filter(row => row.number === number);
  const rest = rows.length ? "every other reading: as a cut" : "whatever is read: as a cut";
  return made("ul", { class: "cases", "aria-label": "A tear here" }, ...rows.map(row => case_line(row, usual)), made("li", {}, swatch("as_cut"), ` ${rest}`));
}

const MOST_WAYS = 24;

// Buttons that lead to the operations of which a case ends otherwise, each with its worst sign.
export function torn_ways(kinds, choose) {
  const way = ([number, kind]) => {
    const button = made("button", { type: "button", "aria-label": `Choose operation ${number}, ${SIGNS[kind]}` }, `${SIGNS[kind]} ${number}`);
    button.addEventListener("click", () => choose(number));
    return button;
  };
  const ways = [...kinds].sort(([one], [other]) => one - other), more = ways.length - MOST_WAYS;
  const said = ways.length ? "A tear ends otherwise than a cut at" : "No tear ends otherwise than a cut before or after its operation.";
  return [said, ...ways.slice(0, MOST_WAYS).map(way), ...(more > 0 ? [`and ${more.toLocaleString("en")} more`] : [])];
}
