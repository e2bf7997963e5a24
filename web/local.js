"use strict";
// Asks the library that the page itself holds, in workers: what server.js asks a server. scripts/one-file puts it in the place of that.

// A file that is no longer kept.
export class Lost extends Error {}

const LIMIT = 2 ** 28; // bytes of all that is kept
const SHORT_COUNT = 2 ** 12; // rows that are counted soon
const LONG = ["census", "inspect", "locate", "life", "tears", "picture"]; // commands that may take long
const files = new Map(); // what is kept, by a name, that which was used last at the end
let held = [], named = 0;

const bytes_in = id => Uint8Array.from(atob(document.getElementById(id).textContent), letter => letter.charCodeAt(0));
const text_in = id => document.getElementById(id).textContent;
const worker_text = URL.createObjectURL(new Blob([text_in("worker.js")], { type: "text/javascript" }));
const library = WebAssembly.compile(bytes_in("library")).catch(error => {
  throw new Error(`This browser does not take the library, which needs WebAssembly's 64-bit memories: ${error.message}`);
});

// One worker, which answers one question after the other.
class Lane {
  constructor(is_ended) {
    this.is_ended = is_ended; // whether a question that nobody asks any more is ended while it runs
    this.waiting = [];
  }

  get load() {
    return this.waiting.length + (this.running ? 1 : 0);
  }

  ask(question, signal) {
    return new Promise((done, fail) => {
      const task = { question, done, fail };
      signal?.addEventListener("abort", () => this.drop(task, signal.reason), { once: true });
      this.waiting.push(task);
      this.next();
    });
  }

  drop(task, reason) {
    task.fail(reason);
    this.waiting = this.waiting.filter(it => it !== task);
    if (this.running === task && this.is_ended) this.end();
  }

  end() {
    this.worker.terminate();
    this.worker = this.running = undefined;
    this.next();
  }

  next() {
    if (this.running || !this.waiting.length) return;
    this.running = this.waiting.shift();
    this.worker ??= this.begin();
    this.worker.postMessage(this.running.question);
  }

  begin() {
    const worker = new Worker(worker_text);
    worker.onmessage = ({ data }) => {
      this.running.done(data);
      this.running = undefined;
      this.next();
    };
    worker.onerror = event => {
      event.preventDefault();
      this.running.fail(new Error(event.message));
      this.end();
    };
    library.then(module => worker.postMessage({ module }));
    return worker;
  }
}

const short = Array.from({ length: Math.min(Math.max(navigator.hardwareConcurrency, 2), 4) }, () => new Lane(false));
const long = [new Lane(true)];

function may_take_long(words) {
  const command = words.find(word => word !== "--verbose");
  return LONG.includes(command) || (command === "survey" && Number(words[words.indexOf("--limit") + 1]) > SHORT_COUNT);
}

function used(name) {
  const bytes = files.get(name);
  if (!bytes) throw new Lost("a file is no longer kept");
  files.delete(name);
  files.set(name, bytes);
  return bytes;
}

function put(bytes) {
  const name = `file ${++named}`, size = () => [...files.values()].reduce((sum, file) => sum + file.length, 0);
  files.set(name, new Uint8Array(bytes));
  for (const old of [...files.keys()]) if (size() > LIMIT && old !== name && !held.includes(old)) files.delete(old);
  return name;
}

// Keeps a file, and returns its name.
export async function keep(bytes) {
  const name = put(bytes);
  held.push(name);
  return name;
}

// Of what was kept by `keep`, keeps these alone for certain.
export function hold_only(names) {
  held = names;
}

// The answer to a question: `run`, a command line, `make`, one that makes a file, or `flash`, the flash that a schedule leaves.
export async function ask(path, question, signal) {
  await library;
  signal?.throwIfAborted();
  const lanes = question.words && may_take_long(question.words) ? long : short;
  const lane = lanes.reduce((best, it) => (it.load < best.load ? it : best));
  const { flash, ...said } = await lane.ask({ path, ...question, files: question.files.map(used) }, signal);
  return flash ? { ...said, digest: put(flash) } : said;
}

// Some of the bytes of a file that is kept.
export async function bytes_of(name, from, to) {
  return used(name).slice(from, to);
}
