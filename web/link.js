"use strict";
// The part of an address after `#` holds all that is asked; of a file its name, size and SHA-256.

const CUTS = /^(-|(0|[1-9]\d{0,9})(\.(0|[1-9]\d{0,9})){0,15})$/;
const PLACES = ["a", "b", "flash"], CONTROL = /[\0-\x1f\x7f]/;
const SHA = /^([0-9a-f]{64}|unknown)$/;

// What lies in a place, as a word: `made.264`, or `file.SIZE.SHA.NAME`.
export function given_text({ made, size, sha, name }) {
  return made === undefined ? `file.${size}.${sha}.${name}` : `made.${made}`;
}

// What such a word says, or null where it says nothing.
export function given_of(text) {
  const [how, first, sha, ...name] = (text ?? "").split(".");
  if (how === "made" && first !== undefined && sha === undefined) return { made: first };
  const is_file = how === "file" && /^\d{1,10}$/.test(first) && SHA.test(sha) && name.join(".") !== "";
  return is_file ? { size: Number(first), sha, name: name.join(".") } : null;
}

// A link of pairs of names and texts; those that are undefined or empty are left out.
export function link_text(pairs) {
  return `#${new URLSearchParams(pairs.filter(([, text]) => text !== undefined && text !== ""))}`;
}

const are_cuts = text => CUTS.test(text) && text.split(".").every(cut => cut === "-" || Number(cut) < 2 ** 32);

// The names in a link that are not of this page or are there twice, or whose texts say nothing: `known` are the names that the page has, and
// `choices` has for some of them the texts that they may have.
export function strange_in(said, known, choices) {
  const is_strange = name => {
    const text = said.get(name);
    if (!known.includes(name) || said.getAll(name).length > 1) return true;
    if (PLACES.includes(name)) return !given_of(text);
    if (name === "cuts") return !are_cuts(text);
    return choices[name] ? !choices[name].includes(text) : name !== "script" && CONTROL.test(text);
  };
  return [...new Set(said.keys())].filter(is_strange);
}

// That a link, or a part of it, cannot be read.
export const strange_text = names => `This link cannot be read: ${names.join(", ")}. Nothing is asked until you change something below, or take another link.`;

const bytes_text = size => `${size.toLocaleString("en")} bytes`;
const sha_text = sha => `SHA-256 ${sha.slice(0, 12)}…`;

// That a file of a link is not here.
export function missing_text(place, { name, size, sha }) {
  const field = place === "flash" ? "the dump" : place;
  return `The link asks for ${name} (${bytes_text(size)}, ${sha_text(sha)}) as ${field}, and this browser does not have it: choose it.`;
}

// That another file was taken than the link's, or "".
export function differs_text(wanted, { name, size, sha }) {
  if (!wanted || wanted.sha === sha) return "";
  return `This is not the file of the link: that is ${wanted.name}, ${bytes_text(wanted.size)}, ${sha_text(wanted.sha)}; this is ${name}, ` +
    `${bytes_text(size)}, ${sha_text(sha)}.`;
}
