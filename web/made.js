"use strict";
// Images that the program makes of a payload, so that a board asks a question without a file.

export const VERSIONS = { a: "1.0.0", b: "2.0.0" };
export const HEADER = 32;
export const MOST_PAYLOAD = 2 ** 24; // bytes

const AREA = 40; // bytes of an image after its payload: the area with its digest (docs/FORMAT.md, "Images")
const SHARES = { a: 0.6, b: 0.8 }; // of the largest payload that can be swapped
const SEEDS = { a: 0x2545f491, b: 0x6c078965 };

// A payload in which no two sectors are alike, and no byte is as erased.
export function payload_of(place, size) {
  const bytes = new Uint8Array(size);
  let state = SEEDS[place];
  for (let i = 0; i < size; i++) {
    state ^= state << 13;
    state ^= state >>> 17;
    state ^= state << 5;
    bytes[i] = 1 + ((state >>> 8) % 254);
  }
  return bytes;
}

// A size that is easy to read, and not above another.
function rounded(size) {
  const step = size >= 10000 ? 1000 : size >= 100 ? 10 : 1;
  return Math.floor(size / step) * step;
}

// The bytes of payload for a and b where the largest image has so many bytes; at least one, so that the program says what does not fit.
export function sizes_for(largest) {
  const room = largest - HEADER - AREA;
  return Object.fromEntries(Object.entries(SHARES).map(([place, share]) => [place, Math.max(1, rounded(room * share))]));
}

// The command line that makes an image of the payload `a`.
export function create_words(place) {
  return ["create", "--version", VERSIONS[place], "--header-size", String(HEADER), "--pad-header", "a", "out"];
}

// The number of bytes that a text asks for, or undefined.
export function payload_size(text) {
  const size = /^\d{1,8}$/.test(text) ? Number(text) : NaN;
  return size >= 1 && size <= MOST_PAYLOAD ? size : undefined;
}
