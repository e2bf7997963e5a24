"use strict";
// What the program says of one start: each question is asked once, and its answer kept.
import { in_slots, torn_too } from "./commands.js";
import { Lost, Refused, bytes_of, flash, run, run_judged } from "./program.js";
import { torn_of } from "./tears.js";
import { fields_of, frames_of, kind_of, schedule_text, slots_of } from "./texts.js";

const KEPT = 300; // answers, of which frames may have a megabyte
const is_count = number => Number.isInteger(number) && number >= 0 && number < 2 ** 32;

// The option with its value as words of a command line.
function words_of([option, value]) {
  if (value === undefined) return [option];
  return value.startsWith("-") && value !== "-" ? [`${option}=${value}`] : [option, value];
}

export class Facts {
  constructor(setup) {
    this.setup = setup;
    this.answers = new Map();
    this.sector_bytes = Number(setup.numbers[0][1]);
    this.ending = new AbortController();
  }

  // Nobody asks this question any more.
  end() {
    this.ending.abort();
  }

  // An answer that is kept, unless it fails or nobody waits for it any more.
  once(key, make, signal) {
    const known = this.answers.get(key);
    if (known && !known.signal?.aborted) return known.answer;
    if (this.answers.size >= KEPT) this.answers.delete(this.answers.keys().next().value);
    const entry = { answer: make(), signal };
    this.answers.set(key, entry);
    entry.answer.then(() => (entry.signal = undefined), () => this.answers.get(key) === entry && this.answers.delete(key));
    return entry.answer;
  }

  ask(command, pairs, files, signal) {
    const words = [command, ...pairs.flatMap(words_of)];
    return this.once(JSON.stringify([words, files]), () => run(words, files, signal), signal);
  }

  of_start(command, more, signal) {
    const { numbers, source, rules, files } = this.setup;
    return this.ask(command, [...numbers, ...source, ...rules, ...more], files, signal);
  }

  layout(times) {
    return this.ask("layout", [...this.setup.numbers, ...times], []);
  }

  census(signal) {
    return this.of_start("census", [["--cuts", this.setup.bound], ...this.setup.expected], signal);
  }

  // What power that is lost within an operation of the boot after the cuts leads to, and what the program refuses in it.
  tears(cuts) {
    const { numbers, source, rules, files, expected, tears } = this.setup, { signal } = this.ending;
    const pairs = [...numbers, ...source, ...rules, ["--schedule", schedule_text(cuts)], ["--erase", tears], ...expected];
    return this.once(`tears ${schedule_text(cuts)}`, async () => {
      const { out, refused } = await run_judged(["tears", ...pairs.flatMap(words_of)], files, signal);
      return { torn: torn_of(out), refused };
    }, signal);
  }

  outcome(cuts) {
    return this.of_start("replay", [["--schedule", schedule_text(cuts)]]);
  }

  // The words of the sectors at the end.
  async sectors(cuts) {
    return slots_of(await this.of_start("sectors", [["--schedule", schedule_text(cuts)], ["--words", "all"], ["--end"]]));
  }

  // The versions of two images that fit, by a boot that leaves them where they are.
  async versions() {
    const { numbers, source, kind, files } = this.setup;
    if (kind === "flash") return {};
    const idle = [["--kind", "none"], ...source.filter(([option]) => option !== "--kind"), ["--schedule", "-"]];
    const { primary, secondary } = fields_of(await this.ask("replay", [...numbers, ...idle], files));
    return { a: primary.split(" ")[0], b: secondary.split(" ")[0] };
  }

  // What frames and a picture are asked by: a schedule, the first and the last of each boot's operations, and what is expected.
  framed(command, cuts, first, last, signal, more = []) {
    const span = [["--schedule", schedule_text(cuts)], ["--from", String(first)], ["--to", String(last)]];
    return this.of_start(command, [...span, ...in_slots(this.setup.expected), ...more], signal);
  }

  // The frames of the boot after the cuts, from one number up to another.
  async frames(cuts, from, to, signal) {
    return frames_of(await this.framed("frames", cuts, from, to - 1, signal), this.sector_bytes);
  }

  // A page of the boots of a schedule, with all their operations; torn ones too, where these are asked about.
  async picture(cuts) {
    const outcomes = await Promise.all([...cuts, null].map((_, i) => this.outcome(cuts.slice(0, i))));
    const most = Math.max(1, ...outcomes.map(text => Number(fields_of(text).ops)));
    return this.framed("picture", cuts, 0, most - 1, this.ending.signal, torn_too(this.setup.tears));
  }

  // Whether the schedule ends as expected: a kind as `kind_of` says it. A schedule of as many cuts as are allowed has none below it.
  async kind(cuts) {
    const before = cuts.slice(0, -1), last = cuts.at(-1), after = last ? [...before, last - 1] : before;
    const alone = cuts.length ? [["--after", schedule_text(after)], ["--until", schedule_text([...before, last + 1])]] : [];
    const rows = [["--cuts", String(cuts.length)], ...alone, ["--limit", "2"]];
    return kind_of(fields_of(await this.of_start("survey", [...rows, ...this.setup.expected])));
  }

  // Uses the flash that a schedule leaves, by its digest: once more where the server has dropped it.
  async with_flash(cuts, end, use, signal) {
    const { six, kind, grain, profile, files } = this.setup;
    if (!six.every(is_count)) throw new Refused(2, "no layout");
    const question = { numbers: six, kind, grain, profile: Number(profile), files, cuts, end }, key = JSON.stringify(question);
    const digest = () => this.once(key, () => flash(question, signal), signal);
    try {
      return await use(await digest());
    } catch (error) {
      if (!(error instanceof Lost)) throw error;
      this.answers.delete(key);
      return use(await digest());
    }
  }

  trailers(cuts) {
    const { numbers, profile } = this.setup;
    return this.with_flash(cuts, false, digest => this.ask("type", [...numbers, ["--flash", "a"], ["--profile", profile]], [digest]));
  }

  inspect(cuts) {
    const { numbers, rules, files, kind } = this.setup;
    const known = kind === "flash" ? [] : [["--known-a", "b"], ["--known-b", "c"]], more = kind === "flash" ? [] : files;
    return this.with_flash(cuts, false, digest => this.ask("inspect", [...numbers, ...rules, ["--flash", "a"], ...known], [digest, ...more]));
  }

  bytes(cuts, end, from, to, signal) {
    return this.with_flash(cuts, end, digest => bytes_of(digest, from, to, signal), signal);
  }
}
