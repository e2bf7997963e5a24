"use strict";
// Puts the page together: what is asked, the cuts, and what the program says of them.
import { BootCard } from "./boot.js";
import { by_id, copied, hide_tip, latest } from "./dom.js";
import { show_bytes, show_commands, show_outcome, show_refusal, show_trailers } from "./end.js";
import { Facts } from "./facts.js";
import { begin_form, is_to_make, link_of, make_all, mark_fields, marked_question, setup, take_link, times, wanted_texts } from "./form.js";
import { strange_text } from "./link.js";
import { stripes } from "./map.js";
import { Refused, bytes_of, run } from "./program.js";
import { fields_of_refusal } from "./refusals.js";
import { show_scenes } from "./scenes.js";
import { right_text } from "./sentences.js";
import { limits_text } from "./tears.js";
import { fields_of, is_link, schedule_text } from "./texts.js";
import { show_tearing, show_torn } from "./torn.js";
import { show_counting, show_last_verdict, show_stopped, show_verdict, show_wanted } from "./verdict.js";

const REST = 150; // milliseconds without a change before the maps are filled
const SAVED = 60000; // milliseconds in which a browser has saved a file
const TIMES = ["erase-us", "write-us"]; // fields that only the layout reads
const MOST_BYTES = 2 ** 26; // of a file
const state = { facts: null, cuts: [], chosen: null, filling: new AbortController(), counting: new AbortController(), timer: 0, turn: 0, is_uncounted: false };
const cards = [];

const actions = {
  cut: (index, number) => go(number === null ? state.cuts.slice(0, index) : [...state.cuts.slice(0, index), number]),
  view: () => show(),
  chosen: index => (state.chosen?.index === index ? state.chosen : null),
  choose: chosen => {
    state.chosen = chosen;
    cards.slice(0, state.cuts.length + 1).forEach(card => card.draw());
    fill_soon(0);
  },
  save: async (cuts, end) => {
    try {
      const name = `flash-${schedule_text(cuts)}${end ? "-end" : ""}.bin`;
      await state.facts.with_flash(cuts, end, async digest => save(await bytes_of(digest, 0, MOST_BYTES), name));
    } catch (error) {
      failed(error);
    }
  },
};

function save(bytes, name) {
  const address = URL.createObjectURL(new Blob([bytes]));
  const link = Object.assign(document.createElement("a"), { href: address, download: name });
  link.click();
  setTimeout(() => URL.revokeObjectURL(address), SAVED);
}

// Saves what all power-ons show as a page that takes no program.
async function save_page() {
  const { facts, cuts } = state, button = by_id("save-page"), name = button.textContent;
  button.textContent = "Asking the program …";
  try {
    save(await facts.picture(cuts), "swap.html");
  } catch (error) {
    await failed(error);
  }
  button.textContent = name;
}

function go(cuts) {
  state.cuts = cuts;
  show();
}

// Shows what failed; a refusal with its explanation and its fields. What the last question came to stays, and is said to be of that.
async function failed(error) {
  if (error.name === "AbortError") return;
  const number = error instanceof Refused && /^mcsim: (E\d+) /.exec(error.message)?.[1], { facts, turn } = state;
  const explanation = number ? await run(["explain", number], []).catch(() => "") : "";
  if (turn !== state.turn) return;
  const fields = error.fields ?? (error instanceof Refused ? fields_of_refusal(error.message, marked_question(), error.of_life) : []);
  show_refusal(error.message, explanation, mark_fields(fields, "refusal"), state.cuts.length ? () => ask([]) : null);
  if (error instanceof Refused) by_id("program").hidden = true;
  leave_old(facts);
  document.body.dataset.done = document.body.dataset.shown = "refused";
}

// Leaves what the last question came to, where this one shows nothing; what is shown of this one stays.
function leave_old(facts) {
  const is_old = by_id("shown").classList.contains("old");
  by_id("old-note").hidden = !is_old || by_id("shown").hidden;
  if (is_old) by_id("verdict").hidden = !show_last_verdict(facts);
  else if (by_id("verdict").getAttribute("aria-busy") === "true") by_id("verdict").hidden = true;
  if (is_old) by_id("torn").hidden = true;
}

// Says of what is shown whether it is of the last question, and takes nothing from there if so. Beside what is of this one stands no verdict
// of the last.
function mark_old(is_old) {
  by_id("shown").classList.toggle("old", is_old);
  by_id("shown").inert = is_old;
  if (is_old) return;
  by_id("old-note").hidden = true;
  if (by_id("verdict").classList.contains("old")) by_id("verdict").hidden = true;
}

// What the power-on after `before` shows, cut at a number or left alone.
async function of_boot(facts, before, cut, index) {
  const frame_at = () => cards[index]?.known_frame(facts, before, cut) ?? facts.frames(before, cut, cut + 1).then(found => found[0]);
  const [outcome, frame, slots] = await Promise.all([facts.outcome(before), ...(cut === null ? [null, facts.sectors(before)] : [frame_at()])]);
  return { outcome: fields_of(outcome), frame, slots: slots ?? frame?.words };
}

function place_cards(count) {
  while (cards.length < count) cards.push(new BootCard(cards.length, actions));
  const box = by_id("boots");
  while (box.children.length > count) box.lastElementChild.remove();
  for (const card of cards.slice(box.children.length, count)) box.append(card.element);
}

// What the marks of the maps mean.
function show_legend(asked) {
  by_id("right-means").textContent = asked.expected.length ? `a cut here ends with ${right_text(asked)}` : "a cut here ends in a boot";
  document.querySelectorAll(".of-tears").forEach(it => (it.hidden = !asked.tears));
}

const show = latest(async () => {
  const { facts, cuts } = state;
  state.filling.abort();
  clearTimeout(state.timer);
  if (!facts) return;
  document.body.dataset.shown = document.body.dataset.done = "";
  show_commands(facts.setup, cuts, save);
  try {
    const trailers_asked = facts.trailers(cuts), boots = [...cuts, null].map((cut, i) => of_boot(facts, cuts.slice(0, i), cut, i));
    const [trailers, outcome, kind, ...reports] = await Promise.all([trailers_asked, facts.outcome(cuts), facts.kind(cuts), ...boots]);
    if (facts !== state.facts) return;
    if (!state.is_uncounted) {
      by_id("refusal").hidden = true;
      by_id("program").hidden = false;
    }
    by_id("shown").hidden = false;
    mark_old(false);
    show_legend(facts.setup);
    place_cards(reports.length);
    reports.forEach((boot, i) => cards[i].update(facts, cuts.slice(0, i), cuts[i] ?? null, boot, cuts !== state.cuts));
    show_outcome(cuts, outcome, kind, facts.setup.expected.length);
    show_trailers(trailers);
    document.body.dataset.shown = schedule_text(cuts);
    fill_soon(REST);
  } catch (error) {
    // Of several refusals that of the outcome is shown.
    const first = error instanceof Refused ? await facts.outcome(cuts).then(() => error, other => other) : error;
    if (facts === state.facts) await failed(first);
  }
});

// Fills what takes longer, once nothing has changed for a while.
function fill_soon(rest) {
  state.filling.abort();
  clearTimeout(state.timer);
  const { signal } = (state.filling = new AbortController());
  state.timer = setTimeout(() => fill(signal).catch(error => signal.aborted || failed(error)), rest);
}

async function fill(signal) {
  const { cuts } = state;
  put_link(false);
  await fill_bytes(signal);
  if (by_id("inspect-box").open) await fill_inspection();
  for (const card of cards.slice(0, cuts.length + 1)) await card.fill(signal);
  if (!signal.aborted) document.body.dataset.done = schedule_text(cuts);
}

async function fill_bytes(signal) {
  const { facts, cuts } = state, slots = cards[0].words;
  const { index, slot, sector } = state.chosen ?? { index: Math.max(cuts.length - 1, 0), slot: "primary", sector: slots.primary.length - 1 };
  const upto = cuts.slice(0, index + 1), end = index >= cuts.length, size = facts.sector_bytes;
  const at = (slot === "primary" ? 0 : slots.primary.length) + sector;
  const bytes = await facts.bytes(upto, end, at * size, (at + 1) * size, signal);
  if (!signal.aborted) show_bytes(bytes, { slot, sector }, sector * size, end ? "at the end" : `when power fails at power-on ${index + 1}`);
}

async function fill_inspection() {
  by_id("inspect").textContent = await state.facts.inspect(state.cuts);
}

async function show_layout() {
  const { facts } = state;
  const text = await facts.layout(times()).catch(error => error.message);
  if (facts !== state.facts) return;
  by_id("layout").textContent = text;
  mark_fields(fields_of_refusal(text).filter(id => TIMES.includes(id)), "layout", TIMES);
}

// Counts all sequences; the count before, if it still runs, is no longer asked.
async function count(facts) {
  state.counting.abort();
  const counting = (state.counting = new AbortController());
  by_id("verdict").hidden = false;
  show_counting(() => {
    counting.abort();
    show_stopped(() => count(facts));
  });
  try {
    const [text, versions] = await Promise.all([facts.census(counting.signal), facts.versions()]);
    if (!counting.signal.aborted) show_verdict(facts, text, right_text(facts.setup, versions), go);
  } catch (error) {
    if (counting.signal.aborted) return;
    state.is_uncounted = true; // the refusal stays, whatever else is shown
    await failed(error);
  }
}

// Puts the link of what is asked into the address: a new question is one more entry of the history, and its cuts change that entry.
function put_link(is_new) {
  const link = link_of(state.cuts);
  if (link !== location.hash) history[is_new ? "pushState" : "replaceState"](null, "", link);
}

// Says what power that is lost within an operation of the first boot leads to, where that is asked, apart from what cuts lead to.
async function tear(facts) {
  by_id("torn").hidden = !facts.setup.tears;
  if (!facts.setup.tears) return;
  show_tearing("Asking what power lost within an operation leads to …");
  try {
    const [{ torn, refused }, versions] = await Promise.all([facts.tears([]), facts.versions()]);
    if (facts === state.facts) show_torn(torn, refused, right_text(facts.setup, versions));
  } catch (error) {
    if (facts === state.facts) show_tearing(`The program does not say what power lost within an operation leads to: ${error.message}`);
  }
}

// Begins anew with what the form asks.
async function ask(cuts, is_new = true) {
  const turn = ++state.turn;
  state.facts?.end();
  by_id("torn").hidden = true;
  by_id("limits").textContent = limits_text(by_id("tears").value);
  Object.assign(state, { facts: null, chosen: null, is_uncounted: false, cuts });
  state.counting.abort();
  state.filling.abort();
  document.body.dataset.shown = document.body.dataset.done = "";
  by_id("refusal").hidden = by_id("old-note").hidden = true;
  mark_fields([]);
  mark_old(true);
  put_link(is_new);
  try {
    if (is_to_make()) await make_all();
    if (turn === state.turn) begin_answers(setup());
  } catch (error) {
    if (turn === state.turn) await failed(error);
  }
}

// Asks the program, once all that it is asked about is there.
function begin_answers(asked) {
  if (!asked.ready) return want(wanted_texts().join(" "));
  by_id("program").hidden = false;
  state.facts = new Facts(asked);
  show_layout();
  count(state.facts);
  tear(state.facts);
  go(state.cuts);
}

// A link asks anew, and is an entry of the history already. Any other hash is a place to which the browser has gone, and leaves what is
// asked, and its address.
async function follow_hash() {
  if (!is_link(location.hash)) return put_link(false);
  await follow(location.hash);
}

// Asks what a link says, unless it cannot be read.
async function follow(link) {
  const turn = ++state.turn, { cuts, strange } = await take_link(link);
  if (turn !== state.turn) return;
  if (strange.length) want(strange_text(strange));
  else await ask(cuts, false);
}

// Says that something is to be given first.
function want(text) {
  state.facts?.end();
  state.counting.abort();
  state.filling.abort();
  state.facts = null;
  for (const id of ["shown", "program", "refusal", "old-note", "torn"]) by_id(id).hidden = true;
  mark_fields([]);
  by_id("verdict").hidden = false;
  show_wanted(text);
  document.body.dataset.done = document.body.dataset.shown = "wanted";
}

// Says which version of the program answers.
async function show_version() {
  by_id("version").textContent = (await run(["--version"], [])).trim();
}

async function copy_link() {
  by_id("linked").textContent = (await copied(location.href)) ? "Copied." : "The address line has it.";
}

// Draws anew where the page is made wider or narrower.
function follow_width() {
  let wide = 0;
  new ResizeObserver(([{ contentRect }]) => {
    if (contentRect.width !== wide) cards.slice(0, by_id("boots").children.length).forEach(card => card.draw());
    wide = contentRect.width;
  }).observe(by_id("boots"));
}

async function begin() {
  begin_form({ changed: () => ask([]), filed: () => ask(state.cuts), timed: () => {
    put_link(false);
    if (state.facts) show_layout();
  }, failed });
  show_scenes();
  document.body.append(stripes());
  by_id("link").addEventListener("click", copy_link);
  by_id("save-page").addEventListener("click", save_page);
  by_id("inspect-box").addEventListener("toggle", () => state.facts && fill_soon(0));
  addEventListener("hashchange", follow_hash);
  addEventListener("keydown", event => event.key === "Escape" && hide_tip());
  follow_width();
  await follow(location.hash);
  await show_version().catch(failed);
}

begin().catch(failed);
