"use strict";
// The command lines of the program that print what the page shows.
import { schedule_text } from "./texts.js";

// A word of a command line, for a shell.
export const quoted = word => (/^[\w@%+=:,./-]+$/.test(word) ? word : `'${word.replaceAll("'", "'\\''")}'`);

function command_line(command, pairs, names) {
  const is_file = option => ["--image-a", "--image-b", "--flash"].includes(option);
  const named = ([option, value]) => [option, is_file(option) ? names[value === "b" ? 1 : 0] : value];
  return ["./mcsim", command, ...pairs.flatMap(named).filter(word => word !== undefined).map(quoted)].join(" ");
}

// How the dump at the end of a life is made; its files have the names a, b and script.
function life_line(words) {
  const named = words.map((word, i) => ({ out: "dump.bin", c: "script" })[word] ?? (words[i - 1] === "--image" ? "a" : word));
  return ["The dump, of files a and b and a script", ["./mcsim", ...named.map(quoted)].join(" ")];
}

// What is expected in the slots. Frames and a picture of two images take it from their kind, and have no --all-right.
export const in_slots = expected => expected.filter(([option]) => option.startsWith("--expect-"));

// Whether a picture has torn operations too.
export const torn_too = tears => tears ? [["--torn"], ["--erase", tears]] : [];

// Each with a title.
export function command_lines(setup, cuts) {
  const { numbers, source, rules, expected, bound, names } = setup, start = [...numbers, ...source, ...rules];
  const at = [["--schedule", schedule_text(cuts)]];
  const lines = [
    ["What all come to", "census", [["--cuts", bound], ...expected]],
    ["Each operation", "trace", at],
    ["The sectors then", "sectors", [...at, ["--words", "all"]]],
    ["The outcome, and the flash at the cut", "replay", [...at, ["--at-cut", "cut.flash"]]],
    ["A page to send", "picture", [...at, ...in_slots(expected), ...torn_too(setup.tears)]],
  ];
  if (setup.tears) lines.push(["Power lost within an operation of the next boot", "tears", [...at, ["--erase", setup.tears], ...expected]]);
  const said = lines.map(([title, command, more]) => [title, command_line(command, [...start, ...more], names)]);
  return setup.life ? [life_line(setup.life), ...said] : said;
}
