// What the page says of torn operations, against what the program says of them.
import assert from "node:assert/strict";
import { spawnSync } from "node:child_process";
import { join } from "node:path";
import test from "node:test";
import { SIGNS, case_words, limits_text, short_image, torn_of, torn_sentence, worst_kinds } from "../../../web/tears.js";

const ROOT = join(import.meta.dirname ?? new URL(".", import.meta.url).pathname, "../../..");
const PROGRAM = process.env.MCSIM ?? join(ROOT, "crates/mcsim/out/kept/mcsim");
const LAYOUT = "--sector 256 --unit 8 --max-sectors 4 --chunk 128 --primary 4 --secondary 3".split(" ");
const RIGHT = "b in the primary and a in the secondary";
const LOST = "Power lost within an operation of the first boot";

function tears(kind, ...more) {
  const words = ["tears", ...LAYOUT, "--kind", kind, "--image-a", "examples/a.img", "--image-b", "examples/b.img", ...more, "--all-right"];
  const { stdout, stderr } = spawnSync(PROGRAM, words, { cwd: ROOT, encoding: "utf8" });
  return { torn: torn_of(stdout), refused: stderr };
}

test("an upgrade for good has a case after which the next download can brick it", () => {
  const { torn, refused } = tears("perm");
  assert.match(refused, /^mcsim: E76 /);
  assert.deepEqual(torn.rows.map(({ number, reading, kind }) => [number, reading, kind]),
    [[5, "magic=good,image-ok=bad", "busy"], [5, "magic=good,image-ok=unset", "wrong"]]);
  assert.deepEqual([...worst_kinds(torn)], [[5, "busy"]]);
  assert.deepEqual(torn_sentence(torn, refused, RIGHT),
    { kind: "busy", text: `${LOST}: in 1 of 27 cases the device boots, but the next download can brick it, unlike after a cut there.` });
});

test("by profile 3 it ends otherwise at most", () => {
  const { torn, refused } = tears("perm", "--profile", "3");
  assert.equal(refused, "");
  assert.deepEqual(torn_sentence(torn, refused, RIGHT), { kind: "wrong", text: `${LOST}: in 1 of 27 cases the device ends otherwise than after a cut there.` });
});

test("nothing ends otherwise: right only where it is expected and the program refuses nothing", () => {
  const torn = torn_of("operations 18\ncases 19\n"), refused = "", said = `${LOST}: all of ${torn.cases} cases end as after a cut there`;
  assert.deepEqual(torn_sentence(torn, refused, RIGHT), { kind: "right", text: `${said}, with ${RIGHT}.` });
  assert.deepEqual(torn_sentence(torn, refused, ""), { kind: "as_cut", text: `${said}.` });
  assert.deepEqual(torn_sentence(torn, "mcsim: E76 NotAllRight", RIGHT), { kind: "wrong", text: `${said}, but not always as expected.` });
});

test("a test has a case that ends otherwise, with the same image", () => {
  const { torn, refused } = tears("test");
  assert.deepEqual([torn.rows.map(row => [row.reading, row.kind]), refused], [[["copy-done=bad", "wrong"]], ""]);
  assert.equal(case_words(torn.rows[0], "2.0.0+0/80"), "the same image, but another end than after a cut");
});

test("no operation, nothing to tear", () => {
  const { torn, refused } = tears("none");
  assert.equal(torn_sentence(torn, refused, RIGHT).kind, "none");
});

test("the worst comes first", () => {
  const rows = ["3 data boot perm 1 2.0.0+0/80 none none rest", "3 entry=unset none perm 1 none none none rest", "1 data boot none 0 1.0.0+0/80 none none busy"];
  const torn = torn_of(`operations 5\ncases 9\n${rows.join("\n")}\n`);
  assert.deepEqual(torn.rows.map(row => row.kind), ["bad", "busy", "wrong"]);
  assert.deepEqual([...worst_kinds(torn)], [[3, "bad"], [1, "busy"]]);
  assert.match(torn_sentence(torn, "", "").text, /: in 1 of 9 cases the device does not boot, unlike after a cut there\.$/);
  assert.deepEqual(torn.rows.map(row => case_words(row, "2.0.0+0/80")),
    ["no boot", "boots, and the next download can brick it", "the same image, but another end than after a cut"]);
  assert.equal(case_words(torn.rows[2], short_image("1.0.0+0 80 abcd")), "another image stays");
});

test("each kind has a sign of its own", () => assert.equal(new Set(Object.values(SIGNS)).size, 4));

test("the limits change with what is asked", () => {
  assert.equal(limits_text(""), "Power fails between operations, never within one.");
  assert.notEqual(limits_text("gentle"), limits_text("rough"));
});
