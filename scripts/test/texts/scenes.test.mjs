// The scenes are links that the form can read.
import assert from "node:assert/strict";
import test from "node:test";
import { FIELDS } from "../../../web/boards.js";
import { KINDS } from "../../../web/kinds.js";
import { given_of, strange_in } from "../../../web/link.js";
import { SCENES, scene_link } from "../../../web/scenes.js";
import { is_link } from "../../../web/texts.js";

const CHOICES = { source: ["images", "life"], kind: Object.keys(KINDS), grain: ["call", "unit"], profile: ["1", "2", "3"], tears: ["gentle", "rough"] };

for (const scene of SCENES) {
  test(`${scene.title}: a whole question`, () => {
    const link = scene_link(scene), said = new URLSearchParams(link.slice(1));
    assert.ok(is_link(link));
    assert.deepEqual(strange_in(said, [...FIELDS, ...Object.keys(scene.asks)], CHOICES), []);
    assert.deepEqual(FIELDS.map(field => said.get(field)), scene.numbers.map(String));
    for (const place of ["a", "b"]) assert.match(given_of(said.get(place)).made, /^\d+$/);
    for (const [name, text] of Object.entries(scene.asks)) assert.equal(said.get(name), text);
  });
}

test("no scene says what it comes to", () => {
  for (const { title, shows } of SCENES) assert.doesNotMatch(`${title} ${shows}`, /[✓✗≠⚠]|brick|forg[oe]t|safe|right image|no boot/i);
});

test("each title is there once", () => {
  assert.equal(new Set(SCENES.map(scene => scene.title)).size, SCENES.length);
});
