// How the program's texts are read, and what the page makes of links and command lines.
import assert from "node:assert/strict";
import test from "node:test";
import { command_lines, quoted } from "../../../web/commands.js";
import { class_of, cuts_of, each_word, fields_of, frames_of, grouped, is_link, kind_of, meaning_of, schedule_text, slots_of } from "../../../web/texts.js";

const NUMBERS = [["--sector", "256"]], RULES = [["--grain", "call"], ["--profile", "1"]];
const OF_FLASH = { numbers: NUMBERS, rules: RULES, source: [["--flash", "a"]], expected: [["--expect-primary", "2.0.0"], ["--expect-secondary", "none"]],
  bound: "16", names: ["a dump.bin"] };
const OF_IMAGES = { ...OF_FLASH, source: [["--kind", "test"], ["--image-a", "a"], ["--image-b", "b"]], expected: [["--all-right"]], names: ["old.img", "new.img"] };
const line_of = (setup, title) => Object.fromEntries(command_lines(setup, [9, 4]))[title];

test("a hash without fields is no link", () => {
  for (const hash of ["", "#", "#result", "#boots"]) assert.equal(is_link(hash), false);
  assert.equal(is_link("#sector=256&cuts=9.4"), true);
});

test("schedules", () => {
  for (const [text, cuts] of [["-", []], ["9", [9]], ["9.4", [9, 4]]]) {
    assert.deepEqual(cuts_of(text), cuts);
    assert.equal(schedule_text(cuts), text);
  }
});

test("a picture to send has the expectations of the form", () => {
  assert.equal(line_of(OF_FLASH, "A page to send"),
    "./mcsim picture --sector 256 --flash 'a dump.bin' --grain call --profile 1 --schedule 9.4 --expect-primary 2.0.0 --expect-secondary none");
});

test("a picture of two images has what is right from their kind", () => {
  assert.equal(line_of(OF_IMAGES, "A page to send"),
    "./mcsim picture --sector 256 --kind test --image-a old.img --image-b new.img --grain call --profile 1 --schedule 9.4");
  assert.match(line_of(OF_IMAGES, "What all come to"), / --cuts 16 --all-right$/);
});

test("torn operations are a command where they are asked about", () => {
  assert.equal(line_of({ ...OF_IMAGES, tears: "rough" }, "Power lost within an operation of the next boot"),
    "./mcsim tears --sector 256 --kind test --image-a old.img --image-b new.img --grain call --profile 1 --schedule 9.4 --erase rough --all-right");
  assert.equal(line_of(OF_IMAGES, "Power lost within an operation of the next boot"), undefined);
});

test("a picture has torn operations where they are asked about", () => {
  assert.match(line_of({ ...OF_IMAGES, tears: "gentle" }, "A page to send"), / --schedule 9\.4 --torn --erase gentle$/);
});

test("the dump at the end of a life is made first", () => {
  const life = ["life", "--sector=256", "--image", "a", "--out", "out", "c"], lines = command_lines({ ...OF_FLASH, life }, []);
  assert.deepEqual(lines[0], ["The dump, of files a and b and a script", "./mcsim life --sector=256 --image a --out dump.bin script"]);
});

test("words are quoted for a shell", () => {
  assert.deepEqual(["a.img", "b of us", "it's", "$x"].map(quoted), ["a.img", "'b of us'", "'it'\\''s'", "'$x'"]);
});

test("lines of names and values", () => {
  assert.deepEqual(fields_of("result boot\nprimary 2.0.0+0 80 ab\nend\n"), { result: "boot", primary: "2.0.0+0 80 ab", end: "" });
  assert.deepEqual(slots_of("primary a0 -\nsecondary b0\n"), { primary: ["a0", "-"], secondary: ["b0"] });
});

test("a word for each sector, of words that stand for several", () => {
  assert.deepEqual(each_word("a0 -x3"), ["a0", "-", "-", "-"]);
  assert.deepEqual(each_word("a8..a11 b9 tx2 a0~x2 b3~ *"), ["a8", "a9", "a10", "a11", "b9", "t", "t", "a0~", "a0~", "b3~", "*"]);
});

const FRAMES = `mcsim 0.1.0
schedule 9
boot\tnumber\tcut\toperation\tsector\tprimary\tsecondary\toutcome\tends
boot 0 test 18
0\t9\tcut\terase primary 0\tprimary 0\ta0 -x2 t\tb0..b2\tboot test 9 2.0.0+0/80 1.0.0+0/80 revert\tright
boot 1 test 2
1\t7\t-\tcopy primary 256 to secondary 512 length 128\tsecondary 2\ta0x2 - t\tb0 -x2\tnone none 0 none none none\tno-boot
1\t8\t-\terase secondary 1\tsecondary 1\ta0x2 - t\tb0 - a1~\tboot test 9 1.0.0+0/80 none none\twrong
result boot
type test
ops 2
ends right
`;

test("frames of the last boot, with the sectors that they change and read, a word for each sector, and the kind of end", () => {
  const frames = frames_of(FRAMES, 256);
  assert.deepEqual(frames, [
    { number: 7, text: "copy primary 256 to secondary 512 length 128", what: "copy", target: { slot: "secondary", sector: 2 }, source: { slot: "primary", sector: 1 },
      words: { primary: ["a0", "a0", "-", "t"], secondary: ["b0", "-", "-"] }, outcome: "none none 0 none none none", ends: "bad" },
    { number: 8, text: "erase secondary 1", what: "erase", target: { slot: "secondary", sector: 1 }, source: null,
      words: { primary: ["a0", "a0", "-", "t"], secondary: ["b0", "-", "a1~"] }, outcome: "boot test 9 1.0.0+0/80 none none", ends: "wrong" }]);
  assert.equal(frames[0].words.primary, frames[1].words.primary);
  assert.deepEqual(frames_of(FRAMES.replace(/^1\t.*\n/gm, ""), 256), []);
});

test("kinds of a counted row", () => {
  const kinds = [[{ rows: "1", boot: "1" }, "right"], [{ rows: "1", boot: "1", right: "1" }, "right"], [{ rows: "1", boot: "0", right: "0" }, "bad"],
    [{ rows: "1", boot: "1", right: "0" }, "wrong"], [{ rows: "1", boot: "0" }, "bad"]];
  for (const [counts, kind] of kinds) assert.equal(kind_of(counts), kind);
});

test("counts with commas", () => {
  assert.deepEqual(["7", "1234", "1384617332780985", ">=340282366920938463463374607431768211455"].map(grouped),
    ["7", "1,234", "1,384,617,332,780,985", "at least 340,282,366,920,938,463,463,374,607,431,768,211,455"]);
});

test("words of sectors", () => {
  assert.equal(meaning_of("b0"), "what secondary sector 0 held at the start");
  assert.equal(meaning_of("a12~"), "a copy of primary sector 12 that is not done");
  assert.deepEqual(["-", "t", "*", "a0", "b1~"].map(class_of), ["blank", "trailer", "other", "a", "b half"]);
});
