// The images that are made for a layout, against what the program says of them.
import assert from "node:assert/strict";
import { execFileSync, spawnSync } from "node:child_process";
import { mkdtempSync, rmSync, writeFileSync } from "node:fs";
import { tmpdir } from "node:os";
import { join } from "node:path";
import test from "node:test";
import { BOARDS, FIELDS, image_bytes } from "../../../web/boards.js";
import { create_words, payload_of, payload_size, sizes_for } from "../../../web/made.js";

const ROOT = join(import.meta.dirname ?? new URL(".", import.meta.url).pathname, "../../..");
const PROGRAM = process.env.MCSIM ?? join(ROOT, "crates/mcsim/out/kept/mcsim");
const layout_of = numbers => FIELDS.flatMap((field, i) => [`--${field}`, String(numbers[i])]);
const OTHERS = [[65536, 8, 8, 1024, 8, 8], [64, 1, 1, 64, 4, 4], [256, 8, 4, 128, 2, 2], [256, 8, 4, 128, 3, 2], [64, 8, 16, 64, 16, 15]];

// Uses a folder with both images that are made for these numbers.
function with_images(numbers, use) {
  const folder = mkdtempSync(join(tmpdir(), "made-"));
  try {
    for (const [place, size] of Object.entries(sizes_for(image_bytes(numbers)))) {
      writeFileSync(join(folder, "a"), payload_of(place, size));
      execFileSync(PROGRAM, create_words(place).map(word => (word === "out" ? `${place}.img` : word)), { cwd: folder });
    }
    return use(folder);
  } finally {
    rmSync(folder, { recursive: true });
  }
}

for (const [name, numbers] of [...BOARDS.map(board => [board.name, board.numbers]), ...OTHERS.map(numbers => [numbers.join(" "), numbers])]) {
  test(`the largest image of ${name} is as the program says`, () => {
    const { status, stdout } = spawnSync(PROGRAM, ["layout", ...layout_of(numbers)], { encoding: "utf8" });
    const said = status ? undefined : Number(/^image-bytes (\d+)$/m.exec(stdout)[1]);
    assert.equal(image_bytes(numbers.map(String)), said);
  });
}

for (const { name, numbers } of BOARDS) {
  test(`images are made that fit ${name}`, () => with_images(numbers, folder => {
    const source = ["--kind", "test", "--image-a", "a.img", "--image-b", "b.img", "--schedule", "-"];
    const said = execFileSync(PROGRAM, ["replay", ...layout_of(numbers), ...source], { cwd: folder, encoding: "utf8" });
    assert.match(said, /^result boot$/m);
    assert.match(said, /^primary 2\.0\.0\+0 /m);
    assert.match(said, /^secondary 1\.0\.0\+0 /m);
  }));
}

test("no numbers of a layout, no largest image", () => {
  for (const texts of [["x", "8", "4", "128", "4", "3"], ["", "", "", "", "", ""], ["256", "8", "4", "128", "1", "1"], ["0", "8", "4", "128", "4", "3"]]) {
    assert.equal(image_bytes(texts), undefined, texts.join(" "));
  }
});

test("payloads are not zeros nor erased, and differ between a and b", () => {
  const [a, b] = ["a", "b"].map(place => payload_of(place, 4096));
  for (const bytes of [a, b]) assert.ok(bytes.every(byte => byte > 0 && byte < 255));
  assert.notDeepEqual(a, b);
  const parts = bytes => Array.from({ length: 64 }, (_, i) => bytes.slice(i * 64, (i + 1) * 64).join());
  assert.equal(new Set([...parts(a), ...parts(b)]).size, 128);
  assert.deepEqual(payload_of("a", 100), a.slice(0, 100));
});

test("a payload is a number of bytes", () => {
  assert.deepEqual(["1", "264", "16777216", "0", "", "-1", "1e3", "16777217", "999999999", "2.5"].map(payload_size),
    [1, 264, 16777216, undefined, undefined, undefined, undefined, undefined, undefined, undefined]);
});

test("where nothing fits, one byte is asked for, and the program says what does not fit", () => {
  assert.deepEqual(sizes_for(64), { a: 1, b: 1 });
});
