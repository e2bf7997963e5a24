// What the page asks the program, over a server that answers each question with its words.
import assert from "node:assert/strict";
import test from "node:test";
import { Facts } from "../../../web/facts.js";

const NUMBERS = [["--sector", "256"]], RULES = [["--grain", "call"]];
const IMAGES = [["--kind", "test"], ["--image-a", "a"], ["--image-b", "b"]];
const OF_IMAGES = { numbers: NUMBERS, rules: RULES, source: IMAGES, expected: [["--all-right"]], files: [] };
const OF_FLASH = { ...OF_IMAGES, source: [["--flash", "a"]], expected: [["--expect-primary", "-1"], ["--expect-secondary", "none"]] };
const OPS = { "-": "18", "9": "9", "9.4": "5" };
let asked = [];

globalThis.fetch = async (path, { body }) => {
  const { words } = JSON.parse(body), schedule = words[words.indexOf("--schedule") + 1];
  asked.push(words.slice(1).join(" "));
  return { ok: true, json: async () => ({ status: 0, out: words.includes("replay") ? `ops ${OPS[schedule]}\n` : "boot 2 test 0\n", err: "" }) };
};

async function words_of(work) {
  asked = [];
  await work();
  return asked;
}

test("a view of a boot is one question, asked once", async () => {
  const facts = new Facts(OF_IMAGES), view = () => facts.frames([9, 4], 0, 5);
  assert.deepEqual(await words_of(view), ["frames --sector 256 --kind test --image-a a --image-b b --grain call --schedule 9.4 --from 0 --to 4"]);
  assert.deepEqual(await words_of(view), []);
});

test("frames of a flash are judged by what is expected in the slots", async () => {
  assert.deepEqual(await words_of(() => new Facts(OF_FLASH).frames([], 7, 8)),
    ["frames --sector 256 --flash a --grain call --schedule - --from 7 --to 7 --expect-primary=-1 --expect-secondary none"]);
});

test("a page to send has all operations of the longest boot", async () => {
  const words = await words_of(() => new Facts(OF_IMAGES).picture([9, 4]));
  assert.equal(words.at(-1), "picture --sector 256 --kind test --image-a a --image-b b --grain call --schedule 9.4 --from 0 --to 17");
});

test("a page to send has torn operations where they are asked about", async () => {
  const words = await words_of(() => new Facts({ ...OF_IMAGES, tears: "rough" }).picture([9]));
  assert.match(words.at(-1), /^picture .* --schedule 9 --from 0 --to 17 --torn --erase rough$/);
});

test("a schedule is judged alone", async () => {
  const range = async cuts => (await words_of(() => new Facts(OF_IMAGES).kind(cuts)))[0].split("--grain call ")[1];
  assert.equal(await range([]), "--cuts 0 --limit 2 --all-right");
  assert.equal(await range([9, 4]), "--cuts 2 --after 9.3 --until 9.5 --limit 2 --all-right");
  assert.equal(await range([9, 0]), "--cuts 2 --after 9 --until 9.1 --limit 2 --all-right");
});
