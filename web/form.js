"use strict";
// What is asked: the fields, what lies in the places, and the link that holds it all.
import { BOARDS, FIELDS, board_of, image_bytes } from "./boards.js";
import { by_id, made } from "./dom.js";
import { file_in, image_in, life_in, life_words, make_image, make_life, said_of, take_all_named, take_file } from "./given.js";
import { KINDS } from "./kinds.js";
import { given_of, given_text, link_text, strange_in } from "./link.js";
import { VERSIONS, sizes_for } from "./made.js";
import { cuts_of, schedule_text } from "./texts.js";

const IMAGES = ["a", "b"], PLACES = [...IMAGES, "flash"];
const OTHERS = ["kind", "grain", "profile", "bound", "expect-primary", "expect-secondary", "script", "erase-us", "write-us", "tears"];
const KNOWN = [...FIELDS, ...OTHERS, ...PLACES, "source", "cuts"]; // names in links
const BEGIN = { kind: "test", grain: "call", profile: "1", bound: "16" };
const CHOICES = {
  source: ["images", "flash", "life"], kind: Object.keys(KINDS), grain: ["call", "unit"], profile: ["1", "2", "3"], tears: ["gentle", "rough"],
};
const OF_LIFE = { a: "image that is delivered, in the primary slot", b: "image for downloads" };
let sized = true; // whether the payloads follow the layout

const value_of = id => by_id(id).value.trim();
const source = () => document.querySelector("[name=source]:checked").value;
const numbers_of = () => FIELDS.map(value_of);
const is_made = place => IMAGES.includes(place) && value_of(`from-${place}`) === "made";
const needed = () => (source() === "flash" ? ["flash"] : IMAGES);

// What lies in a place: its name and digest, or undefined.
function given_in(place) {
  if (!is_made(place)) return file_in(place);
  const thing = image_in(place, value_of(`payload-${place}`));
  return thing && { name: made_name(place), ...thing };
}

// The name of an image that is made, as the command lines have it: a life names a and b.
function made_name(place) {
  return source() === "life" ? place : `${place}.img`;
}

const options_of = ids => ids.map(id => [`--${id}`, value_of(id)]);

// The life that is asked for, once its images are there.
function life_asked() {
  const images = IMAGES.map(place => given_in(place)?.digest), words = life_words(options_of(FIELDS), options_of(["grain", "profile"]));
  return { words, images, script: by_id("script").value };
}

// What the fields ask: options of command lines, and the files that they read.
export function setup() {
  const numbers = options_of(FIELDS), of_images = source() === "images", places = needed().map(given_in);
  const life = source() === "life" && { name: "dump.bin", ...life_in(life_asked()) }, files = life ? [life] : places;
  const expected = options_of(["expect-primary", "expect-secondary"]).filter(([, text]) => text);
  return {
    numbers, six: numbers.map(([, text]) => Number(text)), kind: of_images ? value_of("kind") : "flash", rules: options_of(["grain", "profile"]),
    grain: value_of("grain"), profile: value_of("profile"), bound: value_of("bound"), tears: value_of("tears"),
    source: of_images ? [["--kind", value_of("kind")], ["--image-a", "a"], ["--image-b", "b"]] : [["--flash", "a"]],
    expected: of_images ? [["--all-right"]] : expected, files: files.map(it => it?.digest), names: files.map(it => it?.name),
    made: [...needed().filter(is_made).map(given_in), ...(life ? [life, { name: "script", bytes: by_id("script").value }] : [])],
    life: life && life_words(numbers, options_of(["grain", "profile"])),
    ready: [...places, ...files].every(it => it?.digest),
  };
}

// Whether something that is asked is still to be made.
export function is_to_make() {
  const images = needed().filter(is_made).some(place => !given_in(place));
  return images || (source() === "life" && needed().every(given_in) && !life_in(life_asked()));
}

// Has the program make what is asked and is not made yet.
export async function make_all() {
  for (const place of needed().filter(is_made)) await make_image(place, value_of(`payload-${place}`));
  if (source() === "life" && needed().every(given_in)) await make_life(life_asked());
  show_given();
}

// What is to be given first: a sentence for each place where nothing lies.
export function wanted_texts() {
  const plain = { flash: "Choose a dump of both slots, or drop it on its field.", a: "Choose a file for a.", b: "Choose a file for b." };
  return needed().filter(place => !given_in(place)).map(place => said_of(place) || plain[place]);
}

// The options of the two times, where both are given.
export function times() {
  const pairs = options_of(["erase-us", "write-us"]).filter(([, text]) => text);
  return pairs.length === 2 ? pairs : [];
}

function given_link(place) {
  if (is_made(place)) return given_text({ made: value_of(`payload-${place}`) });
  return file_in(place) && given_text(file_in(place));
}

// The part of an address that holds all that is asked, and the cuts.
export function link_of(cuts) {
  const of_life = source() === "life", value = id => (id === "script" ? (of_life ? by_id(id).value : "") : value_of(id));
  const fields = [...FIELDS, ...OTHERS].map(id => [id, value(id) === BEGIN[id] ? "" : value(id)]);
  const said = needed().map(place => [place, given_link(place)]);
  return link_text([...fields, ["source", source() === "images" ? "" : source()], ...said, ["cuts", cuts.length ? schedule_text(cuts) : ""]]);
}

// Sets the payload of an image that a link has made, and returns the file that it names otherwise.
function named_by(said, place) {
  const given = given_of(said.get(place));
  if (given && place !== "flash") by_id(`from-${place}`).value = given.made === undefined ? "file" : "made";
  if (given?.made !== undefined) by_id(`payload-${place}`).value = given.made;
  return given?.made === undefined ? given : null;
}

// Sets the fields as a link says, and returns its cuts, and what of it cannot be read. Where it says nothing of an image, that stays.
export async function take_link(text) {
  const said = new URLSearchParams(text.replace(/^#/, ""));
  const strange = strange_in(said, KNOWN, CHOICES), read = name => (strange.includes(name) ? undefined : said.get(name) ?? undefined);
  FIELDS.forEach((id, i) => (by_id(id).value = said.get(id) ?? BOARDS[0].numbers[i]));
  for (const id of OTHERS) by_id(id).value = read(id) ?? BEGIN[id] ?? "";
  document.querySelector(`[name=source][value=${read("source") ?? "images"}]`).checked = true;
  const named = PLACES.filter(place => said.has(place)).map(place => [place, named_by(said, place)]), sizes = sizes_for(image_bytes(numbers_of()) ?? 0);
  sized = IMAGES.every(place => !given_of(said.get(place))?.made || value_of(`payload-${place}`) === String(sizes[place]));
  reflect();
  await take_all_named(Object.fromEntries(named));
  show_given();
  return { cuts: cuts_of(read("cuts") ?? "-"), strange };
}

// What a field is called: its label, and the name of the file that lies there.
function field_name(id) {
  const own = [...by_id(id).closest("label").childNodes].filter(node => node.nodeType === Node.TEXT_NODE).map(node => node.textContent.trim()).join(" ");
  const place = id.replace(/^(file|payload)-/, ""), file = id.startsWith("file-") && file_in(place)?.name;
  if (id.startsWith("expect-")) return `expected in the ${own}`;
  if (id.startsWith("payload-")) return `${place}: ${own}`;
  return file ? `${own}: ${file}` : own;
}

function unmark(field) {
  field.removeAttribute("aria-invalid");
  field.removeAttribute("aria-describedby");
}

// Marks the fields that a refusal is about, which `describedby` tells; others, or others of some, are no longer marked. Returns their names.
export function mark_fields(ids, describedby, some) {
  [...document.querySelectorAll("#setup [aria-invalid]")].filter(field => !some || some.includes(field.id)).forEach(unmark);
  return ids.map(id => {
    by_id(id).setAttribute("aria-invalid", "true");
    by_id(id).setAttribute("aria-describedby", describedby);
    if (by_id(id).closest("details")) by_id(id).closest("details").open = true;
    return { id, name: field_name(id) };
  });
}

// What a refusal may be about: which images are made, and the expectations.
export function marked_question() {
  return { made: Object.fromEntries(IMAGES.map(place => [place, is_made(place)])), expected: setup().expected };
}

// Makes the fields show what they say together.
function reflect() {
  const of_flash = source() === "flash", of_life = source() === "life", kind = of_life ? OF_LIFE : KINDS[value_of("kind")];
  by_id("of-images").hidden = of_flash;
  by_id("of-kind").hidden = of_life;
  by_id("of-flash").hidden = !of_flash;
  by_id("of-life").hidden = !of_life;
  by_id("of-expected").hidden = !of_flash && !of_life;
  by_id("board").value = String(board_of(numbers_of()));
  const largest = image_bytes(numbers_of());
  for (const image of IMAGES) {
    by_id(`is-${image}`).textContent = kind[image];
    if (sized && largest) by_id(`payload-${image}`).value = sizes_for(largest)[image];
    by_id(`of-made-${image}`).hidden = !is_made(image);
    by_id(`of-file-${image}`).hidden = is_made(image);
  }
  show_given();
}

// Says what lies in each place.
function show_given() {
  for (const place of PLACES) {
    const given = given_in(place), note = is_made(place) ? "" : said_of(place), name = is_made(place) ? `version ${VERSIONS[place]}` : given?.name;
    by_id(`name-${place}`).textContent = given ? `${name}, ${given.size.toLocaleString("en")} bytes` : "";
    by_id(`note-${place}`).textContent = note;
    by_id(`note-${place}`).hidden = !note;
  }
  const life = source() === "life" && life_in(life_asked());
  by_id("lived").textContent = life ? life.out : "";
  by_id("lived").hidden = !life;
}

async function take_in(place, file) {
  await take_file(place, file.name, await file.arrayBuffer());
  if (place !== "flash") by_id(`from-${place}`).value = "file";
}

// Takes what was picked or dropped, and says that a file came, or that it failed.
function accept_files(zone, filed, failed) {
  const take = async list => {
    try {
      const room = { a: ["a", "b"], b: ["b"], flash: ["flash"] }[zone.dataset.file];
      for (const [i, file] of [...list].slice(0, room.length).entries()) await take_in(room[i], file);
      reflect();
      filed();
    } catch (error) {
      failed(error);
    }
  };
  const input = zone.querySelector("[type=file]");
  input.addEventListener("change", () => input.files.length && take(input.files));
  zone.addEventListener("dragover", event => { event.preventDefault(); zone.classList.add("over"); });
  zone.addEventListener("dragleave", () => zone.classList.remove("over"));
  zone.addEventListener("drop", event => {
    event.preventDefault();
    zone.classList.remove("over");
    if (event.dataTransfer.files.length) take(event.dataTransfer.files);
  });
}

function choose_board() {
  BOARDS[value_of("board")]?.numbers.forEach((number, i) => (by_id(FIELDS[i]).value = number));
  sized = true;
}

// Makes the form ready: `changed` is called when it asks something else, `filed` when a file came, `timed` when the times change.
export function begin_form({ changed, filed, timed, failed }) {
  by_id("board").append(...BOARDS.map((board, i) => made("option", { value: i }, board.name)), made("option", { value: -1 }, "other numbers"));
  by_id("kind").append(...Object.entries(KINDS).map(([kind, { asks }]) => made("option", { value: kind }, asks)));
  by_id("board").addEventListener("change", choose_board);
  for (const image of IMAGES) by_id(`payload-${image}`).addEventListener("change", () => (sized = false));
  for (const id of ["erase-us", "write-us"]) by_id(id).addEventListener("change", timed);
  by_id("setup").addEventListener("submit", event => event.preventDefault());
  by_id("setup").addEventListener("change", event => {
    if (event.target.type === "file" || event.target.id.endsWith("-us")) return;
    reflect();
    changed();
  });
  // A file that misses its field does not take the page's place.
  for (const kind of ["dragover", "drop"]) addEventListener(kind, event => event.preventDefault());
  document.querySelectorAll(".drop").forEach(zone => accept_files(zone, filed, failed));
}
