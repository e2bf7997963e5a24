// What the page as one file has in place of the server: its worker, over a library that is not the real one.
import assert from "node:assert/strict";
import { readFileSync } from "node:fs";
import test from "node:test";
import vm from "node:vm";

const text_of = name => readFileSync(new URL(`../../../web/${name}`, import.meta.url), "utf8");
const exported = name => new Set([...text_of(name).matchAll(/^export (?:async )?(?:class|function) (\w+)/gm)].map(found => found[1]));

test("both ways to ask have what program.js takes", () => {
  const taken = [...text_of("program.js").matchAll(/^(?:im|ex)port \{ ([^}]+) \} from "\.\/server\.js"/gm)].flatMap(found => found[1].split(", "));
  assert.ok(taken.includes("ask") && taken.includes("keep"));
  for (const file of ["server.js", "local.js"]) for (const name of taken) assert.ok(exported(file).has(name), `${name} of ${file}`);
});

test("a page in one file can name each module, and holds the worker as a text", () => {
  for (const name of ["main.js", "form.js", "given.js", "program.js"]) assert.doesNotMatch(text_of(name), /import\(|from '/, name);
  assert.doesNotMatch(text_of("worker.js"), /<\/script/);
});

// A library whose command lines print their words, and make a file of the first input.
function library(status) {
  const memory = { buffer: new ArrayBuffer(2 ** 22) }, bytes = () => new Uint8Array(memory.buffer);
  let next = 64;
  const put = (at, data) => bytes().set(data, Number(at));
  return {
    memory, free() {}, malloc: size => { const at = next; next += Number(size) + 8 - (Number(size) % 8); return BigInt(at); },
    mcsim_run(words, words_size, a, a_size, ...more) {
      const [out, , err, , file, , lengths] = more.slice(6), line = bytes().slice(Number(words), Number(words + words_size)), made = bytes().slice(Number(a), Number(a + a_size));
      put(out, line);
      put(err, new TextEncoder().encode("no"));
      put(file, made);
      new BigUint64Array(memory.buffer).set([BigInt(line.length), 2n, BigInt(made.length)], Number(lengths) / 8);
      return status;
    },
  };
}

async function answer_of(question, status) {
  const answers = [], scope = { TextEncoder, TextDecoder, Uint8Array, Uint32Array, BigUint64Array, BigInt, setTimeout, postMessage: answer => answers.push(answer),
    WebAssembly: { instantiate: async () => ({ exports: library(status) }) } };
  vm.runInNewContext(text_of("worker.js"), scope);
  scope.onmessage({ data: { module: {} } });
  await scope.onmessage({ data: question });
  return answers[0];
}

test("the worker runs a command line, and makes a file by one", async () => {
  const files = [Uint8Array.from([1, 2, 3])], words = ["create", "a", "out"];
  const run = await answer_of({ path: "run", words, files }, 0), made = await answer_of({ path: "make", words, files }, 0);
  assert.deepEqual([run.status, run.out, run.err, run.flash], [0, "mcsim\0create\0a\0out", "no", undefined]);
  assert.deepEqual([made.status, made.out, [...made.flash]], [0, "mcsim\0create\0a\0out", [1, 2, 3]]);
});

test("what is refused makes no file", async () => {
  const made = await answer_of({ path: "make", words: ["create"], files: [] }, 2);
  assert.deepEqual([made.status, made.flash], [2, undefined]);
});
