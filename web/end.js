"use strict";
// What a schedule comes to: the outcome, the trailers, the bytes of a sector, and the command lines that say the same.
import { command_lines } from "./commands.js";
import { by_id, copied, made } from "./dom.js";
import { fields_of, lines_of, schedule_text } from "./texts.js";

const BADGES = { right: "✓ the right image", wrong: "≠ not as expected", bad: "✗ no boot" };
const WIDTH = 16, MOST_LINES = 512;

export function show_outcome(cuts, text, kind, expected) {
  by_id("end-title").firstChild.textContent = cuts.length ? `Cut at ${schedule_text(cuts)}, it comes to ` : "Not cut, it comes to ";
  by_id("outcome").textContent = text;
  by_id("badge").className = `badge ${kind}`;
  by_id("badge").textContent = kind === "right" && !expected ? "✓ it boots" : BADGES[kind];
}

// The lines of `type`: a table of both trailers, and how the next boot begins.
export function show_trailers(text) {
  const said = fields_of(text), of = slot => said[slot].split(" ").map(pair => pair.split("="));
  const secondary = Object.fromEntries(of("secondary"));
  const row = ([name, value]) => made("tr", {}, made("th", { scope: "row" }, name), made("td", {}, value), made("td", {}, secondary[name]));
  const head = made("tr", {}, made("td"), made("th", { scope: "col" }, "primary"), made("th", { scope: "col" }, "secondary"));
  const table = `The boot begins by the table of swap types: ${said.table}.`;
  const begins = said.resume === "yes" ? "The boot goes on with the swap that was cut." : table;
  by_id("trailers").replaceChildren(made("table", {}, made("thead", {}, head), made("tbody", {}, ...of("primary").map(row))), made("p", {}, begins));
}

const hex = (number, digits) => number.toString(16).padStart(digits, "0");

// Sixteen bytes a line, with the offset in the slot; blank lines in a row are one.
export function hex_lines(bytes, offset) {
  const lines = [];
  for (let begin = 0; begin < bytes.length; begin += WIDTH) {
    const part = bytes.subarray(begin, begin + WIDTH), blank = part.every(byte => byte === 0xff);
    if (blank && lines.at(-1) === "   ⋯    ff") continue;
    lines.push(blank ? "   ⋯    ff" : `${hex(offset + begin, 6)}  ${Array.from(part, byte => hex(byte, 2)).join(" ")}`);
  }
  return lines;
}

export function show_bytes(bytes, { slot, sector }, offset, when) {
  const lines = hex_lines(bytes, offset), more = lines.length - MOST_LINES;
  by_id("bytes-title").textContent = `Bytes of ${slot} sector ${sector}, ${when}`;
  by_id("bytes").textContent = lines.slice(0, MOST_LINES).join("\n") + (more > 0 ? `\n${more} more lines: save the flash to see them` : "");
}

// What is made here, to be saved for these command lines.
function made_here(things, save) {
  const button = ({ name, bytes }) => {
    const it = made("button", { type: "button" }, `Save ${name}`);
    it.addEventListener("click", () => save(bytes, name));
    return it;
  };
  return things.length ? [made("li", { class: "row" }, made("span", {}, "What is made here, for these commands:"), ...things.map(button))] : [];
}

// The command lines; `save` gives somebody what was made here as a file.
export function show_commands(setup, cuts, save) {
  const lines = command_lines(setup, cuts).map(([title, line]) => {
    const button = made("button", { type: "button", "aria-label": `Copy: ${title}` }, "Copy");
    button.addEventListener("click", async () => (button.textContent = (await copied(line)) ? "Copied" : "Select it"));
    return made("li", {}, made("span", {}, title), made("code", { tabindex: 0, role: "group", "aria-label": title }, line), button);
  });
  by_id("commands").replaceChildren(...made_here(setup.made, save), ...lines);
}

// Buttons that lead to the fields which a refusal is about.
function ways_to(fields) {
  const way = ({ id, name }) => {
    const button = made("button", { type: "button" }, name);
    button.addEventListener("click", () => by_id(id).focus());
    return button;
  };
  return fields.length ? [made("p", { class: "row fields" }, "Look at", ...fields.map(way))] : [];
}

// A refusal: what the program says, what `explain` says of its number, the fields that it is about, and a way back.
export function show_refusal(said, explanation, fields, without_cuts) {
  const box = by_id("refusal"), [first, ...reasons] = lines_of(said);
  const parts = [made("h2", {}, first), ...reasons.map(line => made("p", {}, line))];
  if (explanation) parts.push(made("pre", { id: "explanation", tabindex: 0, role: "group", "aria-label": "What this refusal means" }, explanation));
  parts.push(...ways_to(fields));
  if (without_cuts) {
    const button = made("button", { type: "button" }, "Show it without cuts");
    button.addEventListener("click", without_cuts);
    parts.push(button);
  }
  box.replaceChildren(...parts);
  box.hidden = false;
}
