"use strict";
// What all sequences of power cuts come to, in sentences.
import { KINDS } from "./kinds.js";
import { grouped } from "./texts.js";

const DIGEST = /^[0-9a-f]{64}$/, DIGITS_SHOWN = 12;

// What is expected of a slot: a version, the image of a digest, or none.
function expected_text(value) {
  if (value === "none") return "no valid image";
  return DIGEST.test(value) ? `the image of digest ${value.slice(0, DIGITS_SHOWN)}…` : value;
}

// What is right, in words: what lies in the slots at the end, or "" where nothing is expected. Versions are those of a and b, if known.
export function right_text({ kind, expected }, versions = {}) {
  if (kind === "flash") return expected.map(([option, value]) => `${expected_text(value)} in the ${option.slice("--expect-".length)}`).join(" and ");
  const { named } = KINDS[kind], other = named === "a" ? "b" : "a", said = name => name + (versions[name] ? ` (${versions[name]})` : "");
  return `${said(named)} in the primary and ${said(other)} in the secondary`;
}

function within(bound) {
  if (bound === "0") return "without a power cut";
  return `of at most ${bound} power cut${bound === "1" ? "" : "s"}`;
}

// Why no sequence boots, where one reason holds for all.
function reason_of({ schedules, none, panic }) {
  if (none === schedules) return ": the primary holds no valid image";
  return panic === schedules ? ": each last boot panics" : "";
}

// The sentence of a census: whether all is well, what to say, and the shortest sequence that is not well.
export function sentence_of(counts, bound, right) {
  const { boot, "shortest-not-boot": not_boot, "shortest-not-right": not_right } = counts, which = within(bound);
  if (boot === "0") return { good: false, text: `No sequence ${which} boots${reason_of(counts)}.`, shortest: not_boot };
  if (not_boot !== "none") return { good: false, text: `Some sequences ${which} do not boot.`, shortest: not_boot };
  if (counts.right === undefined) return { good: true, text: `Every sequence ${which} boots.`, shortest: "none" };
  if (not_right === "none") return { good: true, text: `Every sequence ${which} ends with ${right}.`, shortest: "none" };
  const how_many = counts.right === "0" ? "none ends" : "not all end";
  return { good: false, text: `All sequences ${which} boot, but ${how_many} with ${right}.`, shortest: not_right };
}

// The counts, those alone that say something.
export function counted(counts, good) {
  const parts = [`${grouped(counts.schedules)} sequence${counts.schedules === "1" ? "" : "s"}`];
  if (!good) parts.push(`${grouped(counts.boot)} boot`);
  if (!good && counts.right !== undefined) parts.push(`${grouped(counts.right)} end as expected`);
  for (const end of ["none", "panic", "fault"]) if (counts[end] !== "0") parts.push(`${grouped(counts[end])} end in ${end}`);
  return `${parts.join(", ")}. A last boot makes at most ${grouped(counts["most-ops"])} operations.`;
}

// A map in words: its boot, and what cuts before the operations that it shows come to, once that is known.
export function map_text({ name, type, count, view: { from, to }, frames, can_be_cut }) {
  const many = number => number.toLocaleString("en"), boot = `Map of ${name}: ${type}, ${many(count)} operation${count === 1 ? "" : "s"}.`;
  if (!frames || !can_be_cut) return boot;
  const of = kind => many(frames.filter(frame => frame.ends === kind).length);
  const where = to - from < count ? ` before operations ${many(from)} to ${many(to - 1)}` : "";
  return `${boot} Of the cuts${where}, ${of("right")} end right, ${of("wrong")} wrong, ${of("bad")} with no boot.`;
}
