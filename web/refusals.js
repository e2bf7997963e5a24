"use strict";
// Which fields of the form a refusal is about, by the options, images and lines that it names (docs/FORMAT.md, "Refusals").

const OPTIONS = { "--cuts": "bound", "--sector": "sector", "--unit": "unit", "--max-sectors": "max-sectors", "--chunk": "chunk", "--primary": "primary",
  "--secondary": "secondary", "--grain": "grain", "--profile": "profile", "--kind": "kind", "--erase-us": "erase-us", "--write-us": "write-us" };
const OF_VERSION = ["E15", "E16"], OF_DUMP = ["E51"], OF_DOWNLOAD = ["E79", "E80"];
const GOOD = /^((0|[1-9]\d*)(\.(0|[1-9]\d*)){0,2}|(0|[1-9]\d*)(\.(0|[1-9]\d*)){2}\+(0|[1-9]\d*)|[0-9a-f]{64}|none)$/;

// The expectations whose texts are no version, digest or `none`; both where neither stands out.
function bad_expectations(expected) {
  const fields = expected.filter(([, text]) => !GOOD.test(text)), said = fields.length ? fields : expected;
  return said.map(([option]) => option.slice(2));
}

// The ids of the fields: `asked` is the question, and `of_life` whether a life was refused.
export function fields_of_refusal(text, { made = {}, expected = [] } = {}, of_life = false) {
  const number = /^mcsim: (E\d+) /.exec(text)?.[1], field_of = place => (made[place] ? `payload-${place}` : `file-${place}`);
  const options = [...text.matchAll(/--[a-z]+(?:-[a-z]+)*/g)].map(found => OPTIONS[found[0]]).filter(Boolean);
  const images = [...text.matchAll(/\bimage ([AB])\b/g)].map(found => field_of(found[1].toLowerCase()));
  const others = [];
  if (OF_VERSION.includes(number)) others.push(...bad_expectations(expected));
  if (OF_DUMP.includes(number)) others.push("file-flash");
  if (of_life && (/, line \d+/.test(text) || OF_DOWNLOAD.includes(number))) others.push("script");
  if (of_life && !options.length && !others.length) others.push(field_of("a"));
  return [...new Set([...options, ...images, ...others])];
}
