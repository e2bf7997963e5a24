"use strict";
// Draws a boot as a map: operations from left to right, sectors from top to bottom, and above them what a power cut there comes to.
import { drawn } from "./dom.js";
import { map_text } from "./sentences.js";
import { class_of } from "./texts.js";

const ENDS = 13, OPERATIONS = 15, GAP = 4, LETTERS = { erase: "E", copy: "C", write: "W" };
const LEAST = 5, LETTER = 7, WORD = 60; // pixels: of what is not right, of a letter, and of the place of a word
const MARKS = { right: "✓", wrong: "≠", bad: "✗", busy: "⚠" };
const STRIPED = ["a", "b", "trailer", "other", "wrong", "bad", "busy"];
const SLOTS = ["primary", "secondary"];

const px = number => Math.round(number * 100) / 100;
const box = (kind, x, y, width, height) => drawn("rect", { class: kind, x: px(x), y: px(y), width: px(width), height: px(height) });
const label = (kind, x, y, text) => drawn("text", { class: kind, x: px(x), y: px(y) }, text);

const room_of = text => LETTER * text.length + 4;

// A box, with a text in it where it has room: in its middle, or in that of its beginning.
function labelled_box(kind, x, y, width, height, text, place = width) {
  const has_room = text && width >= room_of(text) && height > 9;
  return [box(kind, x, y, width, height), ...(has_room ? [label(kind, x + Math.min(width, place) / 2, y + height / 2, text)] : [])];
}

// The stripes of all maps, by the names of their colours.
export function stripes() {
  const striped = name => drawn("pattern", { id: `${name}-stripes`, width: 6, height: 6, patternUnits: "userSpaceOnUse" },
    drawn("rect", { width: 6, height: 6, fill: `var(--${name})` }),
    drawn("path", { d: "M-1 1 1-1M0 6 6 0M5 7 7 5", stroke: `var(--${name}-line)`, "stroke-width": 1.6 }));
  return drawn("svg", { class: "stripes", width: 0, height: 0, "aria-hidden": "true" }, ...STRIPED.map(striped));
}

// The height of a sector, by how many there are in both slots.
const height_of = sectors => (sectors <= 16 ? 17 : sectors <= 48 ? Math.max(5, 240 / sectors) : 240 / sectors);

// Where things are on a map so many pixels wide, with its margin, which has the names. `x` is of an operation, counted from the view's first.
function places(wide, margin, { view, primary, secondary, shows_tears }) {
  const high = height_of(primary + secondary), torn = shows_tears ? ENDS + GAP : 0, column = (wide - margin) / (view.to - view.from);
  const top = { ends: 0, tears: torn, operations: torn + ENDS + GAP, primary: torn + ENDS + OPERATIONS + 2 * GAP };
  top.secondary = top.primary + primary * high + GAP;
  return { wide, margin, high, top, column, height: top.secondary + secondary * high + 1, x: i => margin + i * column };
}

// The runs of items that have the same value: from, to, and the value.
function runs_of(items, value_of) {
  const runs = [];
  items.forEach((item, i) => {
    const value = value_of(item), last = runs.at(-1);
    if (last?.value === value) last.to = i + 1;
    else runs.push({ from: i, to: i + 1, value });
  });
  return runs;
}

// A boot has a name, a type, a count of operations and a view of them; of these, once they are known, frames (`frames_of`) and what tears in them
// come to, by number; how many sectors each slot has; whether it can be cut, and shows tears; and its cut.
export class BootMap {
  constructor() {
    this.element = drawn("svg", { class: "map", role: "img" });
  }

  // Draws a boot anew where it is another one, or more of it is known, or the page is wider; else it moves the cut alone.
  draw(boot) {
    const wide = this.element.getBoundingClientRect().width, shown = [wide, boot, boot.frames, boot.torn];
    if (!wide) return;
    if (!this.shown || shown.some((it, i) => it !== this.shown[i])) this.draw_all(wide, boot);
    this.shown = shown;
    this.cut.replaceChildren(...this.cut_parts());
  }

  draw_all(wide, boot) {
    const margin = parseFloat(getComputedStyle(this.element).getPropertyValue("--margin"));
    this.boot = boot;
    this.at = places(wide, margin, boot);
    this.cut = drawn("g", { class: "cut" });
    const part = (name, ...parts) => drawn("g", { class: name }, ...parts), parts = [part("names", ...this.names())];
    if (boot.frames) parts.push(part("words", ...this.words()), part("targets", ...this.targets()), part("operations", ...this.operations()));
    if (boot.frames && boot.can_be_cut) parts.push(part("ends", ...this.ends()));
    if (boot.shows_tears) parts.push(part("tears", ...this.tears()));
    this.element.setAttribute("viewBox", `0 0 ${wide} ${px(this.at.height)}`);
    this.element.setAttribute("aria-label", map_text(boot));
    this.element.replaceChildren(...parts, part("edges", ...this.edges()), this.cut);
  }

  // The number of the operation under the pointer.
  number_at(event) {
    const { left, width } = this.element.getBoundingClientRect(), { wide, margin, column } = this.at, { view } = this.boot;
    const number = Math.floor(view.from + (((event.clientX - left) * wide) / width - margin) / column);
    return Math.max(view.from, Math.min(view.to - 1, number));
  }

  names() {
    const { top, high, margin } = this.at, { primary, secondary, shows_tears, frames } = this.boot, middle = top.operations + OPERATIONS / 2;
    const tears = shows_tears ? [["a tear here", "", top.tears + ENDS / 2]] : [];
    const short = margin < 40, rows = [["a cut here", "", ENDS / 2], ...tears, ["operation", "", middle],
      ["primary", "P", top.primary + (primary * high) / 2], ["secondary", "S", top.secondary + (secondary * high) / 2]];
    const waits = frames ? [] : [label("waits", margin + 6, middle, "asking the program")];
    return [...rows.map(([long, letter, y]) => label("name", margin - 8, y, short ? letter : long)), ...waits];
  }

  // What a cut before each operation comes to; what is not right comes last, and is wide enough to be seen.
  ends() {
    const runs = runs_of(this.boot.frames, frame => frame.ends);
    runs.sort((one, other) => (other.value === "right") - (one.value === "right"));
    return runs.flatMap(({ from, to, value }) => this.end(value, from, to, 0));
  }

  // A mark of operations in one of the strips.
  end(kind, from, to, top) {
    const { x, wide } = this.at, width = Math.max(x(to) - x(from), LEAST);
    return labelled_box(kind, Math.min(x(from), wide - width), top, width, ENDS - 1, MARKS[kind]);
  }

  // What a tear in each operation comes to at worst, where that is not as a cut.
  tears() {
    const { top, margin, wide } = this.at, { torn, view } = this.boot;
    const under = [box("blank", margin, top.tears, wide - margin, ENDS - 1), box("edge", margin + 0.5, top.tears + 0.5, wide - margin - 1, ENDS - 2)];
    if (!torn) return [...under, label("waits", margin + 6, top.tears + ENDS / 2, "asking the program")];
    const seen = [...torn].map(([number, kind]) => [number - view.from, kind]).filter(([i]) => i >= 0 && i < view.to - view.from);
    return [...under, ...seen.flatMap(([i, kind]) => this.end(kind, i, i + 1, top.tears))];
  }

  // The kind of each operation; where they have no room, like ones are one box.
  operations() {
    const { x, top, column } = this.at, { frames } = this.boot, gap = column > 5 ? 1 : 0;
    return runs_of(frames, frame => (gap ? frame : frame.what)).flatMap(({ from, to }) => {
      const { what } = frames[from];
      return labelled_box(what, x(from), top.operations, x(to) - x(from) - gap, OPERATIONS, LETTERS[what]);
    });
  }

  // The words of each sector before the operations: those that are the same, one after another, are one box, with the word at the first.
  words() {
    const { x, top, high, column } = this.at, { frames } = this.boot, gap = high > 9 ? 1 : 0, between = column > 9 ? gap : 0;
    return SLOTS.flatMap(slot => {
      const moments = runs_of(frames, frame => frame.words[slot]);
      return moments[0].value.flatMap((_, sector) => runs_of(moments, ({ value }) => value[sector]).flatMap(run => {
        const left = x(moments[run.from].from), wide = x(moments[run.to - 1].to) - left - between, word = run.value === "-" ? "" : run.value;
        const place = column >= room_of(word) ? column : WORD;
        return labelled_box(class_of(run.value), left, top[slot] + sector * high, wide, high - gap, word, place);
      }));
    });
  }

  // The sector that each operation changes: in a frame where there is room, else marked.
  targets() {
    const { x, top, high, column } = this.at, { frames } = this.boot, has_room = column >= 7 && high >= 7;
    const value_of = ({ what, target: { slot, sector } }) => `${what === "erase"} ${slot} ${sector}`;
    return runs_of(frames, has_room ? frame => frame : value_of).map(({ from, to }) => {
      const { what, target } = frames[from], left = x(from), upper = top[target.slot] + target.sector * high;
      if (has_room) return box("target", left + 0.5, upper + 0.5, column - 2, high - 2);
      return box(what === "erase" ? "mark erased" : "mark", left, upper, Math.max(x(to) - left, 0.8), Math.max(high, 1.5));
    });
  }

  // Lines round the operations and the slots, since some of what they hold stands out little from the page.
  edges() {
    const { top, high, margin, wide } = this.at, { primary, secondary } = this.boot;
    const parts = [[top.operations, OPERATIONS], [top.primary, primary * high], [top.secondary, secondary * high]];
    return parts.map(([upper, height]) => box("edge", margin - 0.5, upper - 0.5, wide - margin, height));
  }

  // What did not happen, dimmed, and the cut.
  cut_parts() {
    const { cut, view } = this.boot, { x, top, wide, height } = this.at;
    if (cut === null || cut < view.from || cut >= view.to) return [];
    const left = x(cut - view.from), place = `translate(${px(left)} ${top.operations - 4})`;
    const bolt = drawn("path", { class: "bolt", d: "m3 0-8 9h4l-2 8 8-10h-4z", transform: place });
    return [box("dim", left, top.operations, wide - left, height - top.operations), box("at", left - 1.25, 0, 2.5, height), bolt];
  }
}
