// What a link says of images and files, and what is said where a file is missing or another.
import assert from "node:assert/strict";
import test from "node:test";
import { differs_text, given_of, given_text, link_text, missing_text, strange_in, strange_text } from "../../../web/link.js";

const SHA = "0123456789abcdef".repeat(4), FILE = { name: "my app.v2.bin", size: 1372, sha: SHA };

test("a made image and a file come back from a link as they were", () => {
  for (const given of [{ made: "264" }, { made: "" }, FILE, { ...FILE, name: ".hidden" }, { ...FILE, sha: "unknown" }]) {
    const said = new URLSearchParams(link_text([["a", given_text(given)]]).slice(1));
    assert.deepEqual(given_of(said.get("a")), given);
  }
});

test("other words say nothing", () => {
  for (const text of [null, "", "made", "made.1.2", "file", "file.1", `file.1.${SHA}`, `file.1.${SHA}.`, `file.x.${SHA}.n`, "file.1.abc.n", "x.1"]) {
    assert.equal(given_of(text), null, text);
  }
});

test("what cannot be read in a link is named", () => {
  const known = ["a", "b", "flash", "kind", "profile", "cuts", "sector", "script"], choices = { kind: ["test", "none"], profile: ["1"] };
  const strange = text => strange_in(new URLSearchParams(text), known, choices);
  assert.deepEqual(strange("a=made.1&b=x&kind=test&cuts=9.4"), ["b"]);
  assert.deepEqual(strange("kind=&profile=9&flash=&cuts=9."), ["kind", "profile", "flash", "cuts"]);
  assert.deepEqual(strange("sectr=256&sector=1&sector=1"), ["sectr", "sector"]);
  assert.deepEqual(strange("sector=%00&script=boot%0Aboot"), ["sector"]);
  for (const text of ["", "cuts=-", "cuts=0", "cuts=4294967295", `cuts=${Array(16).fill(7).join(".")}`]) assert.deepEqual(strange(text), [], text);
  for (const cuts of ["", "01", "1..2", "-1", "4294967296", Array(17).fill(7).join(".")]) assert.deepEqual(strange(`cuts=${cuts}`), ["cuts"], cuts);
  assert.match(strange_text(["kind", "cuts"]), /^This link cannot be read: kind, cuts\./);
});

test("a link leaves out what is empty, and codes the rest", () => {
  assert.equal(link_text([["sector", "256"], ["a", undefined], ["b", ""], ["script", "boot\nerase 0"]]), "#sector=256&script=boot%0Aerase+0");
});

test("a missing file is named, with its size and SHA-256", () => {
  assert.equal(missing_text("b", FILE),
    "The link asks for my app.v2.bin (1,372 bytes, SHA-256 0123456789ab…) as b, and this browser does not have it: choose it.");
  assert.match(missing_text("flash", FILE), / as the dump, /);
});

test("another file than the link's is said", () => {
  assert.equal(differs_text(undefined, FILE), "");
  assert.equal(differs_text(FILE, { ...FILE, name: "renamed" }), "");
  assert.equal(differs_text(FILE, { name: "x", size: 3, sha: "f".repeat(64) }), "This is not the file of the link: that is my app.v2.bin, 1,372 bytes, " +
    "SHA-256 0123456789ab…; this is x, 3 bytes, SHA-256 ffffffffffff….");
});
