"use strict";
// One power-on: its map, the slider of its cut, and the sectors at the cut or at its end.
import { made, tell_by_tip } from "./dom.js";
import { BootMap } from "./map.js";
import { draw_slots } from "./slots.js";
import { case_words, short_image, worst_kinds } from "./tears.js";
import { torn_cases, torn_ways } from "./torn.js";

const MOST_CUTS = 16;
const MOST_SHOWN = 4096, NEAREST = 32; // operations of a view
const FEW = 96; // operations that are seen well without a nearer view
const STEP = 8; // by which a view grows or shrinks

export class BootCard {
  constructor(index, actions) {
    this.index = index;
    this.actions = actions;
    this.view = null;
    this.heading = made("span");
    this.state = made("em");
    const button = text => made("button", { type: "button", "aria-label": `${text}, power-on ${index + 1}` }, text);
    this.near = button("Zoom in");
    this.far = button("Zoom out");
    this.span = made("span", { class: "span" });
    this.zoom = made("p", { class: "row zoom" }, this.near, this.far, this.span);
    this.drawing = new BootMap();
    this.slider = made("input", { type: "range", min: 0, "aria-label": `Power-on ${index + 1}: where power fails` });
    this.line = made("p");
    this.after = made("p", { class: "after" });
    this.ways = made("p", { class: "row after" });
    this.tears = made("div", {});
    this.slots = made("div", { class: "slots" });
    this.save = button("Save this flash");
    this.whole = button("Let it run");
    this.element = made("section", { class: "card boot" }, made("h2", {}, this.heading, this.state), this.zoom, this.drawing.element, this.slider,
      made("div", { class: "line" }, this.line, this.whole, this.save), this.after, this.ways, this.tears, this.slots);
    this.listen();
  }

  listen() {
    this.slider.addEventListener("input", () => this.cut_at(Number(this.slider.value)));
    this.drawing.element.addEventListener("click", event => this.cut_at(this.drawing.number_at(event)));
    tell_by_tip(this.drawing.element, event => this.text_at(this.drawing.number_at(event)));
    this.whole.addEventListener("click", () => this.cut_at(this.count));
    this.near.addEventListener("click", () => this.zoom_to((this.map.view.to - this.map.view.from) / STEP));
    this.far.addEventListener("click", () => this.zoom_to((this.map.view.to - this.map.view.from) * STEP));
    this.save.addEventListener("click", () => this.actions.save(this.upto, this.cut === null));
  }

  cut_at(number) {
    this.slider.value = number;
    this.actions.cut(this.index, number < this.count ? number : null);
  }

  // What is known of an operation, and of a cut before it.
  text_at(number) {
    const { view, frames, cases, can_be_cut } = this.map, { text, outcome } = frames?.[number - view.from] ?? { text: "" };
    const torn = cases?.rows.find(it => it.number === number), tear = torn ? `\na tear in it, at worst: ${case_words(torn, this.usual)}` : "";
    return `${number} ${text}${outcome && can_be_cut ? `\na cut before it: ${outcome}` : ""}${tear}`;
  }

  // So many operations round one, as far as there are.
  view_round(middle, size) {
    const span = Math.min(size, this.count), from = Math.max(0, Math.min(this.count - span, middle - Math.floor(span / 2)));
    return { from, to: from + span };
  }

  // Shows so many operations round the cut.
  zoom_to(size) {
    const { from, to } = this.map.view, span = Math.max(NEAREST, Math.min(MOST_SHOWN, Math.round(size)));
    this.view = this.view_round(this.cut ?? Math.round((from + to) / 2), span);
    this.actions.view();
  }

  // The view, moved to where the cut is; at first it has as many operations as one may have.
  current_view() {
    const { from, to } = this.view ?? { from: 0, to: 0 }, cut = this.cut ?? from;
    if (cut < from || cut >= to) this.view = this.view_round(cut, to - from || MOST_SHOWN);
    return this.view;
  }

  // The frame of an operation after these cuts, where the map has it.
  known_frame(facts, before, number) {
    const same = this.facts === facts && this.before.join() === before.join();
    return same ? this.map.frames?.[number - this.map.view.from] : undefined;
  }

  // Shows the boot after `before`, cut at a number or left alone: its outcome uncut, the sectors at that moment, and the frame of the cut. The
  // slider stays where it is if it was moved on meanwhile.
  update(facts, before, cut, { outcome, slots, frame }, moved) {
    const same = this.facts === facts && this.before?.join() === before.join();
    Object.assign(this, { facts, before, cut, frame, upto: cut === null ? before : [...before, cut], count: Number(outcome.ops), words: slots });
    if (!same) this.view = null;
    const view = this.current_view();
    if (!same || this.map.view !== view) {
      const name = `power-on ${this.index + 1}`, [primary, secondary] = [slots.primary.length, slots.secondary.length];
      const shows_tears = Boolean(facts.setup.tears), can_be_cut = this.index < MOST_CUTS;
      this.map = { name, type: outcome.type, count: this.count, view, primary, secondary, can_be_cut, shows_tears };
    }
    this.usual = short_image(outcome.primary);
    this.map.cut = cut;
    this.show_words(outcome);
    if (!moved) this.slider.value = cut ?? this.count;
    this.draw();
  }

  show_words(outcome) {
    const { cut, count, frame } = this, { from, to } = this.map.view;
    this.heading.textContent = `Power-on ${this.index + 1}: ${outcome.type}, ${count.toLocaleString("en")} operation${count === 1 ? "" : "s"}`;
    this.state.textContent = cut === null ? "runs to its end" : `power fails after ${cut.toLocaleString("en")}`;
    this.slider.max = count;
    this.slider.disabled = !count || !this.map.can_be_cut;
    const uncut = count ? "Not cut. Move the slider or click the map to cut the power." : "Nothing is to be done.";
    this.line.replaceChildren(cut === null ? uncut : "Power fails before ");
    if (frame) this.line.append(made("code", {}, `${frame.number} ${frame.text}`));
    this.slider.setAttribute("aria-valuetext", frame ? `before ${frame.number} ${frame.text}` : "not cut");
    this.after.textContent = frame ? `A cut here: ${frame.outcome}` : "";
    this.after.hidden = !frame;
    this.whole.hidden = cut === null;
    this.zoom.hidden = count <= FEW;
    this.near.disabled = to - from <= NEAREST;
    this.far.disabled = to - from >= Math.min(count, MOST_SHOWN);
    this.span.textContent = to - from < count ? `operations ${from.toLocaleString("en")} to ${(to - 1).toLocaleString("en")}; the slider goes over all` : "";
    this.drawing.element.toggleAttribute("hidden", !count);
    this.slider.hidden = !count;
  }

  // The cases of the chosen operation; the ways to the others are made anew only where they are others, so that they keep the focus.
  show_tears() {
    const { cases, torn } = this.map;
    if (this.shown_torn !== torn) this.ways.replaceChildren(...(torn ? torn_ways(torn, number => this.cut_at(number)) : []));
    this.shown_torn = torn;
    this.ways.hidden = !torn;
    this.tears.replaceChildren(...(cases && this.cut !== null ? [torn_cases(cases, this.cut, this.usual)] : []));
  }

  // Asks what tears come to; the answer is kept, so that it is asked for once.
  async fill_tears(map) {
    const { torn } = await this.facts.tears(this.before);
    map.cases = torn;
    map.torn = worst_kinds(torn);
  }

  draw() {
    if (this.count) this.drawing.draw(this.map);
    this.show_tears();
    const { frame, index } = this, marked = [];
    if (frame) {
      marked.push({ ...frame.target, kind: "target" });
      if (frame.source) marked.push({ ...frame.source, kind: "source" });
    }
    const chosen = this.actions.chosen(index);
    if (chosen) marked.push({ ...chosen, kind: "chosen" });
    draw_slots(this.slots, this.words, marked, (slot, sector) => this.actions.choose({ index, slot, sector }));
  }

  // Fills the map, until it is whole or nobody waits for it.
  async fill(signal) {
    if (this.map.complete || !this.count) return;
    const { facts, before, map } = this, { from, to } = map.view;
    map.frames = await facts.frames(before, from, to, signal);
    this.drawing.draw(this.map);
    if (map.shows_tears) await this.fill_tears(map);
    map.complete = true;
    this.drawing.draw(this.map);
    this.show_tears();
  }
}
