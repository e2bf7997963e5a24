// Which fields a refusal is about, by the program's own refusals.
import assert from "node:assert/strict";
import { spawnSync } from "node:child_process";
import { mkdtempSync, rmSync, writeFileSync } from "node:fs";
import { tmpdir } from "node:os";
import { join } from "node:path";
import test from "node:test";
import { FIELDS } from "../../../web/boards.js";
import { create_words, payload_of } from "../../../web/made.js";
import { fields_of_refusal } from "../../../web/refusals.js";

const ROOT = join(import.meta.dirname ?? new URL(".", import.meta.url).pathname, "../../..");
const PROGRAM = process.env.MCSIM ?? join(ROOT, "crates/mcsim/out/kept/mcsim");
const NUMBERS = [256, 8, 4, 128, 4, 3];
const layout = (changed = {}) => FIELDS.map((field, i) => `--${field}=${changed[field] ?? NUMBERS[i]}`);
const IMAGES = ["--kind", "test", "--image-a", "a", "--image-b", "b"], AT = ["--schedule", "-"];

// What the program says on standard error to a command line over two made images, of payloads of so many bytes.
function said_to(words, { sizes = [8, 8], input = "", cut = 0 } = {}) {
  const folder = mkdtempSync(join(tmpdir(), "refusals-"));
  try {
    for (const [i, place] of ["a", "b"].entries()) {
      writeFileSync(join(folder, "payload"), payload_of(place, sizes[i]));
      spawnSync(PROGRAM, create_words(place).map(word => ({ a: "payload", out: place })[word] ?? word), { cwd: folder });
    }
    if (cut) writeFileSync(join(folder, "b"), payload_of("b", cut));
    return spawnSync(PROGRAM, ["--verbose", ...words], { cwd: folder, encoding: "utf8", input }).stderr;
  } finally {
    rmSync(folder, { recursive: true });
  }
}

const replay = (changed, how) => said_to(["replay", ...layout(changed), ...IMAGES, ...AT], how);

for (const [changed, fields] of [[{ sector: 300 }, ["sector"]], [{ unit: 16 }, ["unit"]], [{ chunk: 100 }, ["chunk"]], [{ "max-sectors": 5000 }, ["max-sectors"]],
  [{ primary: 9 }, ["primary", "secondary"]], [{ primary: 2, secondary: 2 }, ["max-sectors"]], [{ sector: "x" }, ["sector"]], [{ "max-sectors": -1 }, ["max-sectors"]]]) {
  test(`numbers ${JSON.stringify(changed)}`, () => {
    const found = fields_of_refusal(replay(changed));
    for (const field of fields) assert.ok(found.includes(field), `${field} in ${found}`);
    assert.ok(found.every(field => FIELDS.includes(field)), found.join());
  });
}

test("images that are made or files", () => {
  const large = replay({}, { sizes: [8, 600] });
  assert.deepEqual(fields_of_refusal(large, { made: { b: true } }), ["payload-b"]);
  assert.deepEqual(fields_of_refusal(large), ["file-b"]);
  assert.deepEqual(fields_of_refusal(replay({}, { sizes: [600, 8] }), { made: { a: true } }), ["payload-a"]);
  assert.deepEqual(fields_of_refusal(replay({}, { cut: 50 })), ["file-b"]);
});

test("a dump, the bound and expectations", () => {
  assert.deepEqual(fields_of_refusal(said_to(["replay", ...layout(), "--flash", "a", ...AT])), ["file-flash"]);
  assert.deepEqual(fields_of_refusal(said_to(["census", ...layout(), ...IMAGES, "--cuts", "17"])), ["bound"]);
  const expected = [["--expect-primary", "2.0.0"], ["--expect-secondary", "2.x"]];
  const said = said_to(["census", ...layout(), ...IMAGES, "--cuts", "1", ...expected.flat()]);
  assert.deepEqual(fields_of_refusal(said, { expected }), ["expect-secondary"]);
  const many = [["--expect-primary", "300.0.0"]];
  assert.deepEqual(fields_of_refusal(said_to(["census", ...layout(), ...IMAGES, "--cuts", "1", ...many.flat()]), { expected: many }), ["expect-primary"]);
});

test("lives", () => {
  const life = (input, how) => said_to(["life", ...layout(), "--image", "a"], { input, ...how });
  for (const script of ["bot\n", "boot\nboot 99\n", "cut 0\nerase 0\n", "boot\nerase 9\n", "boot\ndownload b 9999\n", "boot\ndownload z\n"]) {
    assert.deepEqual(fields_of_refusal(life(script), {}, true), ["script"], script);
  }
  assert.deepEqual(fields_of_refusal(life("boot\n", { sizes: [600, 8] }), { made: { a: true } }, true), ["payload-a"]);
});

test("a cut that cannot occur is no field's", () => {
  assert.deepEqual(fields_of_refusal(said_to(["replay", ...layout(), ...IMAGES, "--schedule", "99"])), []);
});
