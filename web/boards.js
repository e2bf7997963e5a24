"use strict";
// The layouts to choose from (docs/BOARDS.md says where each number stands).

export const FIELDS = ["sector", "unit", "max-sectors", "chunk", "primary", "secondary"];

export const BOARDS = [
  { name: "a small example", numbers: [256, 8, 4, 128, 4, 3] },
  { name: "a Zephyr build, slots of 118 and 117", numbers: [4096, 4, 128, 1024, 118, 117] },
  { name: "nRF52840", numbers: [4096, 4, 128, 1024, 118, 118] },
  { name: "STM32L4", numbers: [2048, 8, 256, 1024, 192, 192] },
  { name: "RP2040", numbers: [4096, 1, 256, 1024, 224, 224] },
  { name: "ESP32", numbers: [4096, 4, 512, 1024, 320, 320] },
];

// The number in the list of the board that has these texts as its numbers, or -1.
export function board_of(texts) {
  return BOARDS.findIndex(board => board.numbers.every((number, i) => String(number) === texts[i]));
}

// The bytes of the largest image that can be swapped (docs/MODEL.md, "Layouts"), or undefined where these texts give none.
export function image_bytes(texts) {
  const [sector, unit, most, , primary, secondary] = texts.map(Number);
  const trailers = Math.ceil((3 * most * unit + 48) / sector), sectors = Math.min(primary - 1 - trailers, secondary - trailers, most);
  return sectors >= 1 && Number.isSafeInteger(sectors * sector) ? sectors * sector : undefined;
}
