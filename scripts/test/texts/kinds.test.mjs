// What the page says of each kind of swap, against what the program says of it.
import assert from "node:assert/strict";
import { execFileSync } from "node:child_process";
import { mkdtempSync, rmSync } from "node:fs";
import { tmpdir } from "node:os";
import { join } from "node:path";
import test from "node:test";
import { KINDS } from "../../../web/kinds.js";

const ROOT = join(import.meta.dirname ?? new URL(".", import.meta.url).pathname, "../../..");
const PROGRAM = process.env.MCSIM ?? join(ROOT, "crates/mcsim/out/kept/mcsim");
const LAYOUT = "--sector 256 --unit 8 --max-sectors 4 --chunk 128 --primary 4 --secondary 3".split(" ");
const VERSIONS = { "1.0.0+0": "a", "2.0.0+0": "b" };
// What the text of a kind says of the image that is to run at the end.
const RUNS_AT_THE_END = /\b([ab]) (?:is tried once|is to stay|comes back|runs on)\b/g;

const mcsim = (...words) => execFileSync(PROGRAM, words, { cwd: ROOT, encoding: "utf8" });
const line = (text, name) => text.split("\n").find(it => it.startsWith(`${name} `)).slice(name.length + 1);
const start_of = kind => [...LAYOUT, "--kind", kind, "--image-a", "examples/a.img", "--image-b", "examples/b.img"];
const image_in = (text, slot) => VERSIONS[line(text, slot).split(" ")[0]];

for (const [kind, { asks, a, b, named }] of Object.entries(KINDS)) {
  test(`${kind}: ${asks}`, () => {
    const runs = [...asks.matchAll(RUNS_AT_THE_END)].map(found => found[1]), outcome = mcsim("replay", ...start_of(kind), "--schedule", "-");
    assert.deepEqual(runs, [image_in(outcome, "primary")]);
    assert.equal(named, image_in(outcome, "primary"));
    assert.notEqual(image_in(outcome, "secondary"), named);
  });

  test(`${kind}: ${a}; ${b}`, () => {
    const folder = mkdtempSync(join(tmpdir(), "kinds-")), flash = join(folder, "start");
    try {
      mcsim("replay", ...start_of(kind), "--schedule", "-", "--at-cut", flash);
      const said = mcsim("inspect", ...LAYOUT, "--flash", flash);
      assert.equal(VERSIONS[line(said, "image primary").split(" ")[0]], "a");
      assert.equal(VERSIONS[line(said, "image secondary").split(" ")[0]], "b");
      assert.match(a, / in the primary slot$/);
      assert.match(b, / in the secondary slot$/);
      assert.equal(a.startsWith("image on trial,"), line(said, "table") === "revert");
      assert.equal(b.startsWith("image that comes back,"), line(said, "table") === "revert");
    } finally {
      rmSync(folder, { recursive: true });
    }
  });
}
