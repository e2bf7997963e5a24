"use strict";
// One instance of the library: a call after another, each over bytes that come with it. One message holds the module.

const ROOM = 2 ** 19, FLASH_LIMIT = 2 ** 25; // bytes
const KINDS = ["none", "test", "perm", "revert", "flash"], GRAINS = ["call", "unit"];
const NOTHING = new Uint8Array();
const encoder = new TextEncoder(), decoder = new TextDecoder();
let begin;
const begun = new Promise(done => (begin = done));

// What one call has of the memory, which it gives back at its end.
class Call {
  constructor(library) {
    this.library = library;
    this.taken = [];
  }

  // Room for bytes: where it is, and its size.
  room(size) {
    const at = this.library.malloc(BigInt(Math.max(size, 1)));
    if (!at) throw new Error("the page has no more memory");
    this.taken.push(at);
    return [at, BigInt(size)];
  }

  put(bytes) {
    const [at, size] = this.room(bytes.byteLength);
    new Uint8Array(this.library.memory.buffer, Number(at), bytes.byteLength).set(new Uint8Array(bytes.buffer, bytes.byteOffset, bytes.byteLength));
    return [at, size];
  }

  bytes([at], size) {
    return new Uint8Array(this.library.memory.buffer, Number(at), size).slice();
  }

  numbers([at], count) {
    return [...new BigUint64Array(this.library.memory.buffer, Number(at), count)].map(Number);
  }

  end() {
    this.taken.forEach(this.library.free);
  }
}

// Calls with so much room, and once more with as much as it wants.
function with_room(library, room, work) {
  for (;;) {
    const call = new Call(library);
    try {
      const { wanted, ...answer } = work(call, room);
      if (wanted <= room) return answer;
      room = wanted;
    } finally {
      call.end();
    }
  }
}

// A command line over files: its status, texts, and the file that it makes.
function call_line(library, { words, files: [a = NOTHING, b = NOTHING, c = NOTHING] }) {
  const line = encoder.encode(["mcsim", ...words].join("\0"));
  return with_room(library, ROOM, (call, room) => {
    const inputs = [line, a, b, c, NOTHING].flatMap(bytes => call.put(bytes));
    const [out, err, file] = [room, ROOM, room].map(size => call.room(size)), lengths = call.room(24);
    const status = library.mcsim_run(...inputs, ...out, ...err, ...file, lengths[0]);
    const [out_size, err_size, file_size] = call.numbers(lengths, 3);
    const wanted = Math.max(out_size, file_size);
    if (wanted > room) return { wanted };
    const texts = { out: decoder.decode(call.bytes(out, out_size)), err: decoder.decode(call.bytes(err, Math.min(err_size, ROOM))) };
    return { wanted, status, ...texts, flash: call.bytes(file, file_size) };
  });
}

// What a command line prints.
function run(library, question) {
  const { flash: _, ...said } = call_line(library, question);
  return said;
}

// The same, with the file that it makes.
function make(library, question) {
  const { flash: file, ...said } = call_line(library, question);
  return said.status ? said : { ...said, flash: file };
}

// The flash that a schedule leaves, at its last cut or at the end.
function flash(library, { numbers, kind, grain, profile, cuts, end, files: [a = NOTHING, b = NOTHING] }) {
  const source = Uint32Array.from([...numbers, GRAINS.indexOf(grain), profile, KINDS.indexOf(kind)]);
  const size = Math.min(Math.max(numbers[0] * (numbers[4] + numbers[5]), ROOM), FLASH_LIMIT);
  return with_room(library, size, (call, room) => {
    const [at] = call.put(source), images = [...call.put(a), ...call.put(b)];
    const [cuts_at] = call.put(Uint32Array.from(cuts)), out = call.room(room), count = call.room(8);
    const made = end ? library.mcsim_flash_left : library.mcsim_flash_at_cut;
    const status = made(at, ...images, cuts_at, BigInt(cuts.length), ...out, count[0]);
    const [wanted] = call.numbers(count, 1), bytes = wanted > room ? NOTHING : call.bytes(out, wanted);
    return status ? { wanted, status, err: decoder.decode(bytes) } : { wanted, status, flash: bytes };
  });
}

onmessage = async ({ data }) => {
  if (data.module) {
    begin(WebAssembly.instantiate(data.module).then(made => made.exports));
    return;
  }
  try {
    const answer = { run, make, flash }[data.path](await begun, data);
    postMessage(answer, answer.flash ? [answer.flash.buffer] : []);
  } catch (error) {
    setTimeout(() => { throw error; }); // so that the page is told, and ends this worker
  }
};
