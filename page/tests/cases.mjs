// The modules of plan_cases: bytes, the words of the command, and what their lines say must come.
// crates/plan_cases/README.md has the format.
import { readFileSync, readdirSync } from "node:fs";
import { join } from "node:path";

const HEADER = [0x00, 0x61, 0x73, 0x6d, 0x01, 0x00, 0x00, 0x00];
const ROOT = join(import.meta.dirname, "..", "..");
const [, listed] = readFileSync(join(ROOT, "crates/plan_cases/src/expected.rt"), "utf8").match(/const REGIONS: .*? = \[(.*?)\];/s);
const REGIONS = Array.from(listed.matchAll(/"(.*?)"/g), ([, name]) => name);
const FLAGS = Array.from(readFileSync(join(ROOT, "embed/include/bobbinazure.h"), "utf8").matchAll(/EACH\((\w+), "(--[a-z-]+)"\)/g));
// Lines about what is read and written, and not about a module.
const DEVICES = ["failing-reads", "failing-writes", "room"];

const digits = text => Array.from({ length: text.length / 2 }, (_, i) => parseInt(text.slice(2 * i, 2 * i + 2), 16));
const letters = text => [...new TextEncoder().encode(text)];
const repeated = (count, run) => Uint8Array.from({ length: count * run.length }, (_, i) => run[i % run.length]);

function size(number) {
  return number < 128 ? [number] : [...[0, 7, 14, 21].map(shift => ((number >>> shift) % 128) + 128), Math.floor(number / 2 ** 28)];
}

function piece(text) {
  if (text.startsWith('"')) return letters(text.slice(1, -1));
  if (text.startsWith("'")) {
    const name = letters(text.slice(1, -1));
    return [...size(name.length), ...name];
  }
  const [count, run] = text.split("*");
  return run === undefined ? digits(text) : repeated(Number(count), digits(run));
}

const pieces = text => Buffer.concat(text.split(/\s+/).filter(Boolean).map(word => Buffer.from(piece(word))));

function section(text) {
  const [id, ...rest] = text.split(" "), contents = pieces(rest.join(" "));
  return Buffer.concat([Buffer.from(digits(id)), Buffer.from(size(contents.length)), contents]);
}

function readBlock(block, before) {
  const made = { name: "", words: [], bytes: [], lengths: null, status: 0, at: null, text: null, has: [], counts: [], data: [], isOfDevices: false };
  const push = text => (made.text = (made.text ?? "") + text);
  for (const line of block.split("\n")) {
    if (line === "" || line.startsWith("#")) continue;
    const space = line.indexOf(" "), key = space < 0 ? line : line.slice(0, space), rest = space < 0 ? "" : line.slice(space + 1);
    const [first, ...others] = rest.split(" ");
    if (key === "case") made.name = rest;
    else if (key === "words") made.words = rest.split(" ");
    else if (key === "again") made.bytes.push(before);
    else if (key === "header") made.bytes.push(Buffer.from(HEADER));
    else if (key === "bytes") made.bytes.push(pieces(rest));
    else if (key === "section") made.bytes.push(section(rest));
    else if (key === "first") made.lengths = rest.split("..").map(Number);
    else if (key === "refused") {
      made.status = 1;
      push(`refused ${rest}\n`);
    } else if (key === "status") made.status = Number(rest);
    else if (key === "at") made.at = rest;
    else if (key === "text") push(`${rest}\n`);
    else if (key === "cut") push(rest);
    else if (key === "no-text") push("");
    else if (key === "regions") rest.split(" ").forEach((number, i) => push(i < REGIONS.length ? `region ${number} ${REGIONS[i]}\n` : `context ${number}\n`));
    else if (key === "has") made.has.push(rest);
    else if (key === "has-not") made.counts.push({ count: 0, words: rest });
    else if (key === "lines") made.counts.push({ count: Number(first), words: others.join(" ") });
    else if (key === "data") made.data.push({ place: Number(first), bytes: pieces(others.join(" ")) });
    else if (DEVICES.includes(key)) made.isOfDevices = true;
    else if (!["planned", "reads", "writes", "read"].includes(key)) throw new Error(`a line of no known kind: ${line}`);
  }
  return { ...made, bytes: Buffer.concat(made.bytes.map(it => Buffer.from(it))) };
}

// Each case that is a module, with options that can be taken; one of a range of lengths comes once for each.
export function readModules(folder) {
  const modules = [];
  for (const file of readdirSync(folder).sort()) {
    let before = Buffer.alloc(0);
    for (const block of readFileSync(join(folder, file), "utf8").split("\n\n")) {
      const made = readBlock(block, before);
      if (!made.name) continue;
      before = made.bytes;
      if (made.words[0] !== "plan" || made.isOfDevices || made.status > 1) continue;
      const [from, to] = made.lengths ?? [made.bytes.length, made.bytes.length];
      for (let length = from; length <= Math.min(to, made.bytes.length); length++) modules.push({ ...made, file, words: made.words.slice(1), bytes: made.bytes.subarray(0, length) });
    }
  }
  return modules;
}

// What differs between what came and what the case says, or null.
export function difference(made, { status, text, data }) {
  if (status !== made.status) return `status ${status}, not ${made.status}`;
  if (made.text !== null && text !== made.text) return `another text:\n${text}`;
  const lines = text.split("\n"), begins = (line, words) => line === words || line.startsWith(`${words} `);
  for (const line of made.has) if (!lines.includes(line)) return `no line “${line}”`;
  for (const { count, words } of made.counts) if (lines.filter(line => begins(line, words)).length !== count) return `not ${count} lines of “${words}”`;
  for (const { place, bytes } of made.data) if (Buffer.compare(Buffer.from(data(place)), bytes) !== 0) return `other bytes of runtime data ${place}`;
  return null;
}

// Where a case says that its bytes are refused: at which byte, and in which entry or in none; or null.
export function spotOf({ at, bytes }) {
  if (at === null || at === "none") return null;
  const [byte, entry = null] = at === "end" ? [bytes.length] : at.split(" entry ").map(Number);
  return { byte, entry };
}

// The options of the C interface for words of the command.
export function optionsOf(words) {
  const given = Object.fromEntries(words.map(word => word.replace(/^--/, "").split("=")));
  return {
    ...Object.fromEntries(FLAGS.map(([, name, word]) => [name, words.includes(word) ? 1 : 0])),
    pointer: Number(given.ptr ?? 8), collector: given.gc === "null" ? 1 : 0, page_size: BigInt(given.page ?? 4096), max_image: BigInt(given["max-image"] ?? 1048576),
  };
}
