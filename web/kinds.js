"use strict";
// The kinds of swap in words: what is asked, what each image is at the start, and which of them is to run at the end (docs/MODEL.md,
// "Start flashes").

const RUNS = "running image, in the primary slot", WAITS = "new image, in the secondary slot";

export const KINDS = {
  test: { asks: "test: b is tried once, then taken back unless it was confirmed", a: RUNS, b: WAITS, named: "b" },
  perm: { asks: "perm: b is to stay", a: RUNS, b: WAITS, named: "b" },
  revert: {
    asks: "revert: a is on trial, b comes back",
    a: "image on trial, in the primary slot",
    b: "image that comes back, in the secondary slot",
    named: "b",
  },
  none: { asks: "none: a runs on", a: RUNS, b: "another image, in the secondary slot", named: "a" },
};
