// The colours of the page, light and dark: texts stand out by 4.5 from what is behind them, and borders and marks by 3 (WCAG 2, 1.4.3 and 1.4.11).
import assert from "node:assert/strict";
import { readFileSync } from "node:fs";
import test from "node:test";

const css = readFileSync(new URL("../../../web/page.css", import.meta.url), "utf8");
const [light_css, dark_css] = css.slice(0, css.indexOf("* { box-sizing")).split("@media");
const colours_of = text => Object.fromEntries([...text.matchAll(/--([\w-]+): (#[0-9a-f]{6})\b/g)].map(found => [found[1], found[2]]));
const LIGHT = colours_of(light_css), DARK = { ...LIGHT, ...colours_of(dark_css) };

const PLAIN = ["ink", "soft", "focus"].flatMap(text => ["page", "paper", "field"].map(under => [text, under]));
const MARKED = ["a", "b", "trailer", "other", "right", "wrong", "bad", "busy", "erase", "copy", "write"].map(name => [`${name}-text`, name]);
const STRIPED = ["a", "b", "trailer", "other", "wrong", "bad", "busy"].map(name => [`${name}-text`, `${name}-line`]);
const TEXTS = [...PLAIN, ...MARKED, ...STRIPED, ["soft", "blank"], ["ink", "blank"], ["paper", "ink"]];
const BORDERS = ["page", "paper", "field", "blank"].flatMap(under => ["edge", "focus", "bad"].map(border => [border, under]));
// What has no line round it stands out by itself; the rest has one of the colour of borders.
const OUTLINED = ["as_cut", "blank", "other", "write"];
const MARKS = ["a", "b", "trailer", "right", "wrong", "bad", "busy", "erase", "copy", "soft"].flatMap(mark => ["paper", "blank"].map(under => [mark, under]));

function luminance(colour) {
  const part = at => parseInt(colour.slice(at, at + 2), 16) / 255, linear = it => (it <= 0.04045 ? it / 12.92 : ((it + 0.055) / 1.055) ** 2.4);
  return 0.2126 * linear(part(1)) + 0.7152 * linear(part(3)) + 0.0722 * linear(part(5));
}

function contrast(one, other) {
  const [low, high] = [luminance(one), luminance(other)].sort((x, y) => x - y);
  return (high + 0.05) / (low + 0.05);
}

for (const [scheme, colours] of Object.entries({ light: LIGHT, dark: DARK })) {
  for (const [pairs, least] of [[TEXTS, 4.5], [BORDERS, 3], [MARKS, 3]]) {
    test(`${scheme}: ${pairs.length} pairs of colours stand out by ${least}`, () => {
      for (const [over, under] of pairs) {
        assert.ok(colours[over] && colours[under], `there is no ${over} or ${under}`);
        assert.ok(contrast(colours[over], colours[under]) >= least, `${over} on ${under}: ${contrast(colours[over], colours[under]).toFixed(2)}`);
      }
    });
  }
}

test("what stands out little has a line round it", () => {
  const rule = /^([^{}\n]*) \{ box-shadow: inset 0 0 0 1px var\(--edge\); \}$/m.exec(css);
  assert.deepEqual(rule[1].split(", ").sort(), OUTLINED.map(name => `.${name}`));
});

test("print has dark texts on white", () => {
  const print = colours_of(css.slice(css.indexOf("@media print")));
  for (const text of ["ink", "soft"]) assert.ok(contrast(print[text], print.paper) >= 4.5, text);
});
