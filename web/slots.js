"use strict";
// The sectors of both slots at one moment: runs of sectors that go on with one another are one piece where there are many.
import { made, tell_by_tip } from "./dom.js";
import { class_of, meaning_of } from "./texts.js";

const SINGLE = 24; // so many sectors of a slot each have a piece of their own, where they have room for a word
const ROOM = 27; // pixels
const LETTER = 10;

// The word that goes on with a word, in a run: the next sector's, or the same.
function following(word) {
  const numbered = /^([ab])(\d+)$/.exec(word);
  return numbered ? `${numbered[1]}${Number(numbered[2]) + 1}` : word;
}

// The runs of words: [begin, end], of sectors that go on with one another.
function runs_of(words, single) {
  const runs = [];
  words.forEach((word, i) => {
    const last = runs.at(-1);
    if (last && !single && following(words[i - 1]) === word) last[1] = i + 1;
    else runs.push([i, i + 1]);
  });
  return runs;
}

function label_of(words, [begin, end]) {
  const word = words[begin];
  if (end - begin === 1) return word === "-" ? "" : word;
  return /^[ab]\d+$/.test(word) ? `${word}–${words[end - 1].slice(1)}` : `${word === "-" ? "" : word}×${end - begin}`;
}

const share = (part, whole) => `${(100 * part) / whole}%`;

// A frame round one sector.
function frame(kind, sector, most) {
  const box = made("i", { class: `frame ${kind}` });
  box.style.left = share(sector, most);
  box.style.width = share(1, most);
  return box;
}

function row_of(slot, words, most, wide, frames, choose) {
  const single = most <= SINGLE && wide >= most * ROOM;
  const row = made("div", { class: "sectors", role: "slider", tabindex: 0, "aria-label": `${slot} slot, sector`,
    "aria-valuemin": 0, "aria-valuemax": words.length - 1 });
  row.append(...runs_of(words, single).map(run => {
    const label = label_of(words, run), tiny = (wide * (run[1] - run[0])) / most < LETTER * label.length ? " tiny" : "";
    const piece = made("span", { class: `piece ${class_of(words[run[0]])}${tiny}` }, label);
    piece.style.left = share(run[0], most);
    piece.style.width = share(run[1] - run[0], most);
    return piece;
  }), ...frames.filter(it => it.slot === slot).map(it => frame(it.kind, it.sector, most)));
  const text_of = sector => `${slot} sector ${sector}: ${meaning_of(words[sector])}`;
  const under = event => {
    const box = row.getBoundingClientRect();
    return Math.max(0, Math.min(words.length - 1, Math.floor(((event.clientX - box.left) / box.width) * most)));
  };
  const chosen = frames.find(it => it.slot === slot && it.kind === "chosen")?.sector;
  row.setAttribute("aria-valuenow", chosen ?? 0);
  row.setAttribute("aria-valuetext", text_of(chosen ?? 0));
  tell_by_tip(row, event => text_of(event ? under(event) : chosen ?? 0));
  row.addEventListener("click", event => choose(slot, under(event)));
  row.addEventListener("keydown", event => {
    const to = { ArrowLeft: (chosen ?? 1) - 1, ArrowRight: (chosen ?? -1) + 1, Home: 0, End: words.length - 1 }[event.key];
    if (to === undefined) return;
    event.preventDefault();
    choose(slot, Math.max(0, Math.min(words.length - 1, to)));
  });
  return row;
}

// Draws both slots into a box. A frame has a slot, a sector and a kind: target, source or chosen.
export function draw_slots(box, slots, frames, choose) {
  const focused = [...box.querySelectorAll(".sectors")].indexOf(document.activeElement);
  const most = Math.max(slots.primary.length, slots.secondary.length);
  box.replaceChildren(...["primary", "secondary"].flatMap(slot => [
    made("span", { class: "name" }, slot), row_of(slot, slots[slot], most, box.clientWidth, frames, choose)]));
  if (focused >= 0) box.querySelectorAll(".sectors")[focused].focus();
}
