"use strict";
// Reads the program's texts (docs/FORMAT.md).

export const schedule_text = cuts => (cuts.length ? cuts.join(".") : "-");
export const cuts_of = text => (text === "-" ? [] : text.split(".").map(Number));
export const lines_of = text => text.split("\n").filter(line => line !== "");

// Whether the part of an address after `#` is a link of this page, which holds fields; any other names a place in the page.
export const is_link = hash => hash.includes("=");

// The lines `name value` as an object.
export function fields_of(text) {
  return Object.fromEntries(lines_of(text).map(line => {
    const at = line.indexOf(" ");
    return at < 0 ? [line, ""] : [line.slice(0, at), line.slice(at + 1)];
  }));
}

// The lines of `sectors`: a list of words for each slot.
export function slots_of(text) {
  return Object.fromEntries(lines_of(text).map(line => {
    const [slot, ...words] = line.split(" ");
    return [slot, words];
  }));
}

// The slot and the offset that an operation changes, and those that it reads, of its words after the number.
function places_of(words) {
  if (words[0] === "copy") return { target: [words[4], words[5]], source: [words[1], words[2]] };
  return { target: [words[1], words[2]], source: null };
}

// An operation: its number, its text, what it is, and the sectors that it changes and reads. An erase names a sector, the others an offset.
function operation_of(number, text, sector_bytes) {
  const words = text.split(" "), { target, source } = places_of(words);
  const sector = place => place && { slot: place[0], sector: words[0] === "erase" ? Number(place[1]) : Math.floor(Number(place[1]) / sector_bytes) };
  return { number: Number(number), text, what: words[0], target: sector(target), source: sector(source) };
}

// The words of a slot, one for each sector, of such as may stand for several: `a2..a9`, which go on with one another, or `-x3`, which are alike.
export function each_word(text) {
  return text.split(" ").flatMap(word => {
    const [, slot, first, last] = /^([ab])(\d+)\.\.\1(\d+)$/.exec(word) ?? [], [, like, many] = /^(.+)x(\d+)$/.exec(word) ?? [];
    if (slot) return Array.from({ length: last - first + 1 }, (_, i) => `${slot}${Number(first) + i}`);
    return many ? Array(Number(many)).fill(like) : [word];
  });
}

const ENDS = { right: "right", wrong: "wrong", "no-boot": "bad" };

// The frames of the last boot that `frames` prints: operations, each with the words of the sectors before it, what a cut there comes to, and the
// kind of that. Where the words are the same they are one list.
export function frames_of(text, sector_bytes) {
  const lines = lines_of(text), begin = lines.findLastIndex(line => /^boot \d+ \w+ \d+$/.test(line)), known = new Map();
  const words_of = slot => known.get(slot) ?? known.set(slot, each_word(slot)).get(slot);
  return lines.slice(begin + 1).filter(line => line.includes("\t")).map(line => {
    const [, number, , operation, , primary, secondary, outcome, ends] = line.split("\t");
    const words = { primary: words_of(primary), secondary: words_of(secondary) };
    return { ...operation_of(number, operation, sector_bytes), words, outcome, ends: ENDS[ends] };
  });
}

// What a counted row comes to: `right`, `wrong` (a boot, and not as expected) or `bad` (no boot).
export function kind_of({ rows, boot, right = boot }) {
  if (right === rows) return "right";
  return boot === rows ? "wrong" : "bad";
}

// A count with commas; one that is not known exactly begins with `at least`.
export function grouped(count) {
  const digits = count.replace(/^>=/, "");
  return (digits === count ? "" : "at least ") + digits.replace(/\B(?=(\d{3})+$)/g, ",");
}

// What a word of `sectors` says.
export function meaning_of(word) {
  const known = { "-": "blank", t: "trailer", "*": "neither blank nor a sector of the start" }[word];
  if (known) return known;
  const slot = word[0] === "a" ? "primary" : "secondary", number = word.slice(1).replace("~", "");
  return word.endsWith("~") ? `a copy of ${slot} sector ${number} that is not done` : `what ${slot} sector ${number} held at the start`;
}

// The class of a word of `sectors`.
export function class_of(word) {
  const plain = { "-": "blank", t: "trailer", "*": "other" }[word];
  return plain ?? word[0] + (word.endsWith("~") ? " half" : "");
}
