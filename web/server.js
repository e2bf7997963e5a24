"use strict";
// Asks the server that the page came from: command lines over files that it keeps, and flashes that cuts leave.

// A file that is no longer kept, and that this page does not hold.
export class Lost extends Error {}

const held = new Map(); // what the server may ask for again, by digest
const PATIENCE = 400; // milliseconds between two attempts at a server that has no room

const pause = time => new Promise(done => setTimeout(done, time));

async function fail_by(answer) {
  const said = await answer.json().catch(() => ({}));
  throw new Error(said.error ?? `the server answers ${answer.status}`);
}

async function send(path, body, signal) {
  try {
    return await fetch(path, { method: "POST", body, signal });
  } catch (error) {
    if (error.name === "AbortError") throw error;
    throw new Error("The server does not answer. Start scripts/serve again, and open the address that it prints.");
  }
}

// Hands a file to the server, and returns its digest.
export async function keep(bytes) {
  const answer = await send("file", bytes);
  if (!answer.ok) await fail_by(answer);
  const { digest } = await answer.json();
  held.set(digest, bytes);
  return digest;
}

// Forgets what was held for the server, but for these digests.
export function hold_only(digests) {
  for (const digest of held.keys()) if (!digests.includes(digest)) held.delete(digest);
}

async function send_again(digests) {
  if (!digests.every(digest => held.has(digest))) throw new Lost("a file is no longer kept");
  for (const digest of digests) await keep(held.get(digest));
}

// The answer to a question: `run`, a command line, `make`, one that makes a file, or `flash`, the flash that a schedule leaves.
export async function ask(path, question, signal) {
  for (;;) {
    const answer = await send(path, JSON.stringify(question), signal);
    if (answer.ok) return answer.json();
    if (answer.status === 409) await send_again((await answer.json()).unknown);
    else if (answer.status === 503) await pause(PATIENCE);
    else await fail_by(answer);
  }
}

// Some of the bytes of a file that the server keeps.
export async function bytes_of(digest, from, to, signal) {
  const answer = await fetch(`file/${digest}?from=${from}&to=${to}`, { signal });
  if (answer.status === 409) throw new Lost("a file is no longer kept");
  if (!answer.ok) await fail_by(answer);
  return new Uint8Array(await answer.arrayBuffer());
}
