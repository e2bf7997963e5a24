// What the page says of a census, and of what is right.
import assert from "node:assert/strict";
import test from "node:test";
import { counted, right_text, sentence_of } from "../../../web/sentences.js";

const PAIR = { a: "1.0.0+0", b: "2.0.0+0" };
const RIGHT = "b (2.0.0+0) in the primary and a (1.0.0+0) in the secondary";
const COUNTS = {
  schedules: "100", boot: "100", none: "0", panic: "0", fault: "0", "most-ops": "1234", "first-not-boot": "none", "shortest-not-boot": "none",
};
const JUDGED = { ...COUNTS, right: "100", "first-not-right": "none", "shortest-not-right": "none" };
const flash = (...expected) => ({ kind: "flash", expected });
const said = (counts, bound = "16") => sentence_of(counts, bound, RIGHT);

test("what is right of two images is said with both slots and versions", () => {
  for (const kind of ["test", "perm", "revert"]) assert.equal(right_text({ kind, expected: [["--all-right"]] }, PAIR), RIGHT);
  assert.equal(right_text({ kind: "none", expected: [["--all-right"]] }, PAIR), "a (1.0.0+0) in the primary and b (2.0.0+0) in the secondary");
  assert.equal(right_text({ kind: "test", expected: [["--all-right"]] }), "b in the primary and a in the secondary");
});

test("what is right of a dump is what was expected of it", () => {
  assert.equal(right_text(flash(["--expect-primary", "2.0.0"], ["--expect-secondary", "none"])), "2.0.0 in the primary and no valid image in the secondary");
  assert.equal(right_text(flash(["--expect-secondary", "1.0.0"])), "1.0.0 in the secondary");
  assert.equal(right_text(flash(["--expect-primary", "0123456789abcdef".repeat(4)])), "the image of digest 0123456789ab… in the primary");
  assert.equal(right_text(flash()), "");
});

test("all is right", () => {
  assert.deepEqual(said(JUDGED), { good: true, text: `Every sequence of at most 16 power cuts ends with ${RIGHT}.`, shortest: "none" });
});

test("nothing is expected, and all boot", () => {
  assert.deepEqual(said(COUNTS), { good: true, text: "Every sequence of at most 16 power cuts boots.", shortest: "none" });
});

test("none boots: the primary holds no valid image", () => {
  const bricked = { ...JUDGED, boot: "0", none: "100", right: "0", "first-not-boot": "-", "shortest-not-boot": "-", "shortest-not-right": "-" };
  assert.deepEqual(said(bricked), { good: false, text: "No sequence of at most 16 power cuts boots: the primary holds no valid image.", shortest: "-" });
  assert.equal(said({ ...bricked, none: "0", panic: "100" }).text, "No sequence of at most 16 power cuts boots: each last boot panics.");
  assert.equal(said({ ...bricked, none: "60", panic: "40" }).text, "No sequence of at most 16 power cuts boots.");
});

test("some do not boot: the shortest of them is shown", () => {
  const some = { ...JUDGED, boot: "99", none: "1", right: "99", "first-not-boot": "3.0.1", "shortest-not-boot": "4", "shortest-not-right": "4" };
  assert.deepEqual(said(some), { good: false, text: "Some sequences of at most 16 power cuts do not boot.", shortest: "4" });
});

test("all boot, not all the right image", () => {
  const wrong = { ...JUDGED, right: "40", "first-not-right": "3.0", "shortest-not-right": "5" };
  assert.deepEqual(said(wrong), { good: false, text: `All sequences of at most 16 power cuts boot, but not all end with ${RIGHT}.`, shortest: "5" });
  assert.equal(said({ ...wrong, right: "0" }).text, `All sequences of at most 16 power cuts boot, but none ends with ${RIGHT}.`);
});

test("counts that are not known exactly are no reason", () => {
  const many = ">=340282366920938463463374607431768211455";
  assert.equal(said({ ...JUDGED, schedules: many, boot: many, right: many }).good, true);
  assert.equal(said({ ...JUDGED, schedules: many, boot: many, right: many, none: "1", "shortest-not-boot": "7" }).text, "Some sequences of at most 16 power cuts do not boot.");
});

test("the bound has its number", () => {
  assert.equal(said(COUNTS, "1").text, "Every sequence of at most 1 power cut boots.");
  assert.equal(said(COUNTS, "0").text, "Every sequence without a power cut boots.");
});

test("counts are said where they say something", () => {
  assert.equal(counted({ ...COUNTS, schedules: "1" }, true), "1 sequence. A last boot makes at most 1,234 operations.");
  assert.equal(counted({ ...JUDGED, boot: "90", none: "10", right: "40" }, false),
    "100 sequences, 90 boot, 40 end as expected, 10 end in none. A last boot makes at most 1,234 operations.");
});
