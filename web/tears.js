"use strict";
// Reads what `tears` says of power that is lost within an operation (docs/FORMAT.md, "Torn operations").
import { grouped, lines_of } from "./texts.js";

// From the worst to the best.
export const SIGNS = { bad: "✗", busy: "⚠", wrong: "≠", as_cut: "✓" };
const ORDER = Object.keys(SIGNS);

// A case that is printed ends otherwise than a cut there: without a boot, with a swap under way that the boot passed by, or in another way.
function kind_of_case({ result, state }) {
  if (result !== "boot") return "bad";
  return state === "rest" ? "wrong" : "busy";
}

function case_of(line) {
  const [number, reading, result, type, ops, primary, secondary, next, state] = line.split(" ");
  const row = { number: Number(number), reading, result, type, ops, primary, secondary, next, state };
  return { ...row, kind: kind_of_case(row) };
}

const worst_first = (one, other) => ORDER.indexOf(one.kind) - ORDER.indexOf(other.kind);

// What `tears` prints: how many operations and cases there are, and those cases that end otherwise, the worst first.
export function torn_of(text) {
  const [operations, cases, ...rows] = lines_of(text), count = line => line.split(" ")[1];
  return { operations: count(operations), cases: count(cases), rows: rows.map(case_of).sort(worst_first) };
}

// What a tear in each operation comes to at worst, where that is not as a cut: kinds by the operations' numbers.
export function worst_kinds(torn) {
  const kinds = new Map();
  for (const { number, kind } of torn.rows) if (!kinds.has(number)) kinds.set(number, kind);
  return kinds;
}

// A case in words; `usual` is the image that the boot leaves in the primary uncut, as a case has it.
export function case_words({ kind, primary }, usual) {
  if (kind === "bad") return "no boot";
  if (kind === "busy") return "boots, and the next download can brick it";
  return primary === usual ? "the same image, but another end than after a cut" : "another image stays";
}

// The image of a slot as a case has it, of the line that `replay` has of it.
export const short_image = text => text.split(" ").slice(0, 2).join("/");

const WORST = {
  bad: "the device does not boot, unlike after a cut there",
  busy: "the device boots, but the next download can brick it, unlike after a cut there",
  wrong: "the device ends otherwise than after a cut there",
};

// The line of verdict on torn operations of the first boot; `refused` is what the program refuses in it, and `right` what is expected. It is
// right only where something is expected, and the program refuses nothing.
export function torn_sentence({ operations, cases, rows }, refused, right) {
  const lost = "Power lost within an operation of the first boot", worst = rows[0]?.kind;
  if (operations === "0") return { kind: "none", text: "The first boot makes no operation, so none can be torn." };
  if (worst) {
    const count = rows.filter(row => row.kind === worst).length;
    return { kind: worst, text: `${lost}: in ${grouped(String(count))} of ${grouped(cases)} cases ${WORST[worst]}.` };
  }
  const as_cut = `${lost}: all of ${grouped(cases)} cases end as after a cut there`;
  if (refused) return { kind: "wrong", text: `${as_cut}, but not always as expected.` };
  return right ? { kind: "right", text: `${as_cut}, with ${right}.` } : { kind: "as_cut", text: `${as_cut}.` };
}

// The limits of the model, by what is asked of torn operations.
export function limits_text(tears) {
  if (!tears) return "Power fails between operations, never within one.";
  const erase = tears === "rough" ? "may leave any bytes in its sector" : "only sets bits";
  return `The second line is of power lost within one operation of the first boot, where a torn erase ${erase}; the first line is of cuts alone.`;
}
