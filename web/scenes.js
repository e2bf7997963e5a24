"use strict";
// Questions to begin with, each a link. What they come to is the program's to say.
import { BOARDS, FIELDS } from "./boards.js";
import { by_id, made } from "./dom.js";
import { link_text } from "./link.js";

const SMALL = BOARDS[0].numbers, LARGE_SECTORS = [65536, 8, 8, 1024, 8, 8];
const IMAGES = { a: "made.260", b: "made.350" };
const TORN = ["boot", "download b", "request perm", "tear 5 magic=good,image-ok=bad", "boot", "download b 100"];

export const SCENES = [
  { title: "A test swap", shows: "b is tried; power can fail before any erase or write", numbers: SMALL, asks: { kind: "test", ...IMAGES } },
  { title: "A revert, and power that fails within a magic", shows: "a comes back; power can also fail between the units of a write", numbers: SMALL,
    asks: { kind: "revert", grain: "unit", ...IMAGES } },
  { title: "The same by profile 2", shows: "a boot loader that takes a torn magic for one that was written", numbers: SMALL,
    asks: { kind: "revert", grain: "unit", profile: "2", ...IMAGES } },
  { title: "Half a download", shows: "b is on trial and downloads half an image; is 1.0.0 still to come back?", numbers: SMALL,
    asks: { source: "life", "expect-primary": "1.0.0", script: ["boot", "download b", "request test", "boot", "download a 100"].join("\n"), ...IMAGES } },
  { title: "An upgrade for good, and torn operations", shows: "b is to stay; power can also fail within an erase or a write", numbers: SMALL,
    asks: { kind: "perm", tears: "gentle", ...IMAGES } },
  { title: "An erase that was torn, and then a download", shows: "an upgrade loses power within an erase; the device runs on and downloads", numbers: SMALL,
    asks: { source: "life", script: TORN.join("\n"), ...IMAGES } },
  { title: "A dump of the device after that", shows: "the next boot has gone by: what can any boot still do?", numbers: SMALL,
    asks: { source: "life", script: [...TORN, "boot"].join("\n"), ...IMAGES } },
  { title: "Sectors of 64 KiB", shows: "few, large sectors; a swap of images of 200,000 bytes and more", numbers: LARGE_SECTORS,
    asks: { kind: "test", a: "made.235000", b: "made.314000" } },
];

// The link that asks what a scene asks.
export const scene_link = ({ numbers, asks }) => link_text([...FIELDS.map((field, i) => [field, String(numbers[i])]), ...Object.entries(asks)]);

// Puts the scenes into their menu, which closes when one is taken.
export function show_scenes() {
  const menu = by_id("scenes"), list = made("ul", {});
  list.append(...SCENES.map(scene => made("li", {}, made("a", { href: scene_link(scene) }, scene.title), ` ${scene.shows}`)));
  list.addEventListener("click", event => event.target.closest("a") && menu.removeAttribute("open"));
  menu.append(list);
}
