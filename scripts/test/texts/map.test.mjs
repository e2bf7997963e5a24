// How a boot is drawn: what lies where, over a document that only holds what it is given.
import assert from "node:assert/strict";
import test from "node:test";
import { BootMap } from "../../../web/map.js";
import { map_text } from "../../../web/sentences.js";

const WIDE = 474, MARGIN = 74;

class Element {
  constructor(name) {
    Object.assign(this, { name, attributes: {}, children: [] });
  }

  setAttribute(name, value) {
    this.attributes[name] = String(value);
  }

  append(...children) {
    this.children.push(...children);
  }

  replaceChildren(...children) {
    this.children = children;
  }

  getBoundingClientRect() {
    return { left: 10, width: WIDE };
  }
}

globalThis.document = { createElementNS: (_, name) => new Element(name) };
globalThis.getComputedStyle = () => ({ getPropertyValue: () => ` ${MARGIN}px` });

const frame = (number, what, target, primary, secondary, ends = "right") =>
  ({ number, text: what, what, target, source: null, words: { primary, secondary }, outcome: "", ends });
const P1 = { slot: "primary", sector: 1 }, S0 = { slot: "secondary", sector: 0 };
const FRAMES = [frame(10, "erase", P1, ["a0", "a1"], ["b0"]), frame(11, "copy", P1, ["a0", "-"], ["b0"], "wrong"),
  frame(12, "copy", P1, ["a0", "b0~"], ["b0"], "bad"), frame(13, "write", S0, ["a0", "b0"], ["t"])];
const BOOT = { name: "power-on 1", type: "test", count: 20, view: { from: 10, to: 14 }, primary: 2, secondary: 1, can_be_cut: true, cut: null };

function drawn(boot) {
  const map = new BootMap();
  map.draw({ ...BOOT, ...boot });
  return map;
}

// The boxes of a part: class, x, y, width and height, and the text in them.
function boxes(map, part) {
  const { children } = map.element.children.find(it => it.attributes.class === part);
  return children.flatMap(({ name, attributes: { class: kind, x, y, width, height } }, i) => {
    const text = children[i + 1]?.name === "text" ? children[i + 1].children[0] : "";
    return name === "rect" ? [[kind, Number(x), Number(y), Number(width), Number(height), text]] : [];
  });
}

test("a sector's words that are the same are one box", () => {
  assert.deepEqual(boxes(drawn({ frames: FRAMES }), "words"), [
    ["a", 74, 36, 399, 16, "a0"],
    ["a", 74, 53, 99, 16, "a1"], ["blank", 174, 53, 99, 16, ""], ["b half", 274, 53, 99, 16, "b0~"], ["b", 374, 53, 99, 16, "b0"],
    ["b", 74, 74, 299, 16, "b0"], ["trailer", 374, 74, 99, 16, "t"]]);
});

test("ends are marked, the right ones first", () => {
  assert.deepEqual(boxes(drawn({ frames: FRAMES }), "ends"), [
    ["right", 74, 0, 100, 12, "✓"], ["right", 374, 0, 100, 12, "✓"], ["wrong", 174, 0, 100, 12, "≠"], ["bad", 274, 0, 100, 12, "✗"]]);
});

test("operations have letters, and a frame round the sector that they change", () => {
  const map = drawn({ frames: FRAMES }), places = boxes(map, "targets").map(([, x, y]) => [x, y]);
  assert.deepEqual(boxes(map, "operations").map(([kind, x, , , , text]) => [kind, x, text]),
    [["erase", 74, "E"], ["copy", 174, "C"], ["copy", 274, "C"], ["write", 374, "W"]]);
  assert.deepEqual(places, [[74.5, 53.5], [174.5, 53.5], [274.5, 53.5], [374.5, 74.5]]);
});

test("where operations have no room, like ones are one box, and what is not right is still seen", () => {
  const many = Array.from({ length: 400 }, (_, i) => frame(i, i < 100 ? "erase" : "copy", P1, ["a0", "-"], ["b0"], i === 399 ? "bad" : "right"));
  const map = drawn({ frames: many, view: { from: 0, to: 400 }, count: 400 });
  assert.deepEqual(boxes(map, "operations").map(it => it.slice(0, 4)), [["erase", 74, 17, 100], ["copy", 174, 17, 300]]);
  assert.deepEqual(boxes(map, "targets").map(it => it.slice(0, 4)), [["mark erased", 74, 53, 100], ["mark", 174, 53, 300]]);
  assert.deepEqual(boxes(map, "ends").at(-1), ["bad", 469, 0, 5, 12, ""]);
});

test("the cut moves alone", () => {
  const boot = { ...BOOT, frames: FRAMES, cut: 12 }, map = new BootMap();
  map.draw(boot);
  const parts = map.element.children, at = () => boxes(map, "cut").map(it => it.slice(0, 4));
  assert.deepEqual(at(), [["dim", 274, 17, 200], ["at", 272.75, 0, 2.5]]);
  boot.cut = 11;
  map.draw(boot);
  assert.equal(map.element.children, parts);
  assert.deepEqual(at(), [["dim", 174, 17, 300], ["at", 172.75, 0, 2.5]]);
  boot.cut = 9;
  map.draw(boot);
  assert.deepEqual(at(), []);
  boot.torn = new Map();
  map.draw(boot);
  assert.notEqual(map.element.children, parts);
});

test("tears are marked where they end otherwise", () => {
  assert.deepEqual(boxes(drawn({ frames: FRAMES, shows_tears: true }), "tears").map(it => it[0]), ["blank", "edge"]);
  const torn = new Map([[12, "busy"], [99, "bad"]]);
  assert.deepEqual(boxes(drawn({ frames: FRAMES, shows_tears: true, torn }), "tears").at(-1), ["busy", 274, 17, 100, 12, "⚠"]);
});

test("the operation under the pointer", () => {
  const map = drawn({ frames: FRAMES });
  assert.deepEqual([0, 84, 183, 185, 480, 900].map(clientX => map.number_at({ clientX })), [10, 10, 10, 11, 13, 13]);
});

test("a map in words", () => {
  const whole = { ...BOOT, frames: FRAMES, count: 4, view: { from: 0, to: 4 } };
  assert.equal(map_text(whole), "Map of power-on 1: test, 4 operations. Of the cuts, 2 end right, 1 wrong, 1 with no boot.");
  const part = "Map of power-on 1: test, 20 operations. Of the cuts before operations 10 to 13, 2 end right, 1 wrong, 1 with no boot.";
  assert.equal(map_text({ ...BOOT, frames: FRAMES }), part);
  for (const it of [{ ...whole, frames: undefined }, { ...whole, can_be_cut: false }]) assert.equal(map_text(it), "Map of power-on 1: test, 4 operations.");
  assert.equal(drawn({ frames: FRAMES }).element.attributes["aria-label"], part);
});
