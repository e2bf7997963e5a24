"use strict";
// What lies in the places of the form: files that were chosen, and what the program makes. Each has a name, a size and a digest.
import { differs_text, missing_text } from "./link.js";
import { MOST_PAYLOAD, create_words, payload_of, payload_size } from "./made.js";
import { Refused, hold_only, keep, make } from "./program.js";
import { recall, remember } from "./store.js";

const KEPT = 12; // things that were made
const files = {}; // of `a`, `b` and `flash`, with their SHA-256
const wanted = {}; // the files that the link names
const things = new Map(); // what was made, by what it was made of, the oldest first
let taking = 0;

async function sha_of(bytes) {
  if (!globalThis.crypto?.subtle) return "unknown";
  return Array.from(new Uint8Array(await crypto.subtle.digest("SHA-256", bytes)), byte => byte.toString(16).padStart(2, "0")).join("");
}

function hold() {
  hold_only([...Object.values(files), ...things.values()].map(thing => thing.digest));
}

export const file_in = place => files[place];

// Takes the bytes of a file in a place.
export async function take_file(place, name, bytes) {
  files[place] = { name, size: bytes.byteLength, sha: await sha_of(bytes), digest: await keep(bytes) };
  hold();
  remember(files[place].sha, bytes); // nobody waits for it
}

// Takes the file that a link names, where it is here or the browser has kept it; else the place is empty.
async function take_named(place, named) {
  wanted[place] = named;
  if (!named || files[place]?.sha === named.sha) return;
  const mine = taking, bytes = await recall(named.sha);
  if (mine !== taking) return;
  delete files[place];
  if (bytes && (await sha_of(bytes)) === named.sha) await take_file(place, named.name, bytes);
  else hold();
}

// Takes what a link names in each place, or nothing where it names none.
export async function take_all_named(named) {
  taking++;
  await Promise.all(Object.entries(named).map(([place, it]) => take_named(place, it)));
}

// What is to be said of a place's file: that it is missing, or is not the link's, or "".
export function said_of(place) {
  if (files[place]) return differs_text(wanted[place], files[place]);
  return wanted[place] ? missing_text(place, wanted[place]) : "";
}

async function made_of(key, making) {
  if (things.has(key)) return things.get(key);
  const { out, bytes } = await making(), thing = { out, bytes, size: bytes.byteLength, digest: await keep(bytes) };
  things.set(key, thing);
  for (const old of [...things.keys()].slice(0, -KEPT)) things.delete(old);
  hold();
  return thing;
}

const image_key = (place, text) => `${place} ${text}`;

// The image of a payload of so many bytes, where it is made.
export const image_in = (place, text) => things.get(image_key(place, text));

export async function make_image(place, text) {
  const size = payload_size(text);
  if (size === undefined) {
    const said = `The payload of ${place} wants a number of bytes from 1 to ${MOST_PAYLOAD.toLocaleString("en")}, not ${text || "nothing"}.`;
    throw Object.assign(new Refused(2, said), { fields: [`payload-${place}`] });
  }
  return made_of(image_key(place, text), async () => make(create_words(place), [await keep(payload_of(place, size))]));
}

// The words that a life is made by; its files are a, b and the script.
export const life_words = (numbers, rules) =>
  ["life", ...[...numbers, ...rules].flatMap(([option, text]) => [`${option}=${text}`]), "--image", "a", "--out", "out", "c"];

const life_key = question => JSON.stringify(question);

// The flash at the end of a life, where it is made: of the words, the two images' digests and the script.
export const life_in = question => things.get(life_key(question));

export async function make_life(question) {
  const { words, images, script } = question;
  try {
    return await made_of(life_key(question), async () => make(words, [...images, await keep(new TextEncoder().encode(script))]));
  } catch (error) {
    throw error instanceof Refused ? Object.assign(error, { of_life: true }) : error;
  }
}
