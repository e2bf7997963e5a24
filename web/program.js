"use strict";
// What the program says of command lines and schedules.
import { ask, bytes_of } from "./server.js";

export { Lost, bytes_of, hold_only, keep } from "./server.js";

const MOST_BYTES = 2 ** 26; // of a file

// A command that the program refuses: its status, and what it says of it.
export class Refused extends Error {
  constructor(status, said) {
    super(said);
    this.status = status;
  }
}

// What a command line prints, and what it refuses after that, as a verdict does; refused where it prints nothing.
export async function run_judged(words, files, signal) {
  const { status, out, err } = await ask("run", { words: ["--verbose", ...words], files }, signal);
  if (status && !out) throw new Refused(status, err);
  return { out, refused: status ? err : "" };
}

// What a command line prints alone.
export async function run(words, files, signal) {
  return (await run_judged(words, files, signal)).out;
}

// The digest of the flash that a schedule leaves.
export async function flash(question, signal) {
  const { status, err, digest } = await ask("flash", question, signal);
  if (status) throw new Refused(status, err);
  return digest;
}

// What a command line prints, and the bytes of the file that it makes.
export async function make(words, files, signal) {
  const { status, out, err, digest } = await ask("make", { words: ["--verbose", ...words], files }, signal);
  if (status) throw new Refused(status, err + out);
  return { out, bytes: await bytes_of(digest, 0, MOST_BYTES, signal) };
}
