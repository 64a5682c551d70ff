// The two modules of which the tests of the crate link_tests are made: the second imports what the
// first exports.
import { readFileSync } from "node:fs";
import { join } from "node:path";

// Their bytes, where the second has what, and the changes that those tests make to one byte of it:
// which import is broken then, and by which rule, where it is not missing; or that none is.
export function twoModules(root) {
  const text = readFileSync(join(root, "crates/link_tests/src/two_modules.rt"), "utf8").replace(/\s+/g, " ").replaceAll("( ", "(").replace(/,? \)/g, ")");
  const bytes = it => Uint8Array.from(text.match(new RegExp(`const ${it}: \\[u8; \\d+\\] = \\[(.*?)\\];`))[1].match(/0x[0-9A-F]{2}/g), Number);
  const places = Object.fromEntries(Array.from(text.matchAll(/const (\w+): usize = (\d+);/g), ([, place, at]) => [place, Number(at)]));
  const changes = text.matchAll(/\((\w+), (0x[0-9A-F]+|\d+), (?:None|Some\(LinkError::\w+\((\d+)(?:, Mismatch::(\w+))?\)\))\)/g);
  return {
    first: bytes("FIRST"), second: bytes("SECOND"), places,
    changes: Array.from(changes, ([, place, byte, broken, rule]) => ({ place: places[place], byte: Number(byte), broken: broken === undefined ? null : Number(broken), rule: rule ?? null })),
  };
}
