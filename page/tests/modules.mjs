// Modules that the checks make.

function number(value) {
  const bytes = [];
  for (;;) {
    const byte = value & 127;
    value >>= 7;
    const isLast = (value === 0 && !(byte & 64)) || (value === -1 && byte & 64);
    bytes.push(isLast ? byte : byte | 128);
    if (isLast) return bytes;
  }
}

export function unsigned(value) {
  const bytes = [];
  do {
    bytes.push((value % 128) + (value >= 128 ? 128 : 0));
    value = Math.floor(value / 128);
  } while (value > 0);
  return bytes;
}

// A module of so many data segments of one byte each, one behind the other.
export function manySegments(count) {
  const contents = new Uint8Array(16 * count + 8);
  let at = 0;
  const push = bytes => bytes.forEach(byte => (contents[at++] = byte));
  push(unsigned(count));
  for (let i = 0; i < count; i++) push([0x00, 0x41, ...number(i), 0x0b, 0x01, (i % 255) + 1]);
  const pages = unsigned(Math.ceil(count / 65536) + 1), memory = [0x01, 0x00, ...pages];
  return Buffer.concat([
    Buffer.from([0x00, 0x61, 0x73, 0x6d, 0x01, 0x00, 0x00, 0x00, 0x05, memory.length, ...memory, 0x0b, ...unsigned(at)]), contents.subarray(0, at),
  ]);
}

export const HEADER = [0x00, 0x61, 0x73, 0x6d, 0x01, 0x00, 0x00, 0x00];
const TYPE = [0x01, 0x04, 0x01, 0x60, 0x00, 0x00];

export function section(id, parts) {
  const contents = Buffer.concat(parts.map(part => Buffer.from(part)));
  return Buffer.concat([Buffer.from([id, ...unsigned(contents.length)]), contents]);
}

export const name = words => [...unsigned(words.length), ...Buffer.from(words)];

// A module that exports its one function under so many names.
export function manyExports(count) {
  const each = Array.from({ length: count }, (_, i) => [...name(`f${i}`), 0x00, 0x00]);
  return Buffer.concat([Buffer.from([...HEADER, ...TYPE, 0x03, 0x02, 0x01, 0x00]), section(7, [unsigned(count), ...each]), Buffer.from([0x0a, 0x04, 0x01, 0x02, 0x00, 0x0b])]);
}

// A module that imports so many functions, under these names.
export function manyImports(count) {
  const each = Array.from({ length: count }, (_, i) => [...name("m"), ...name(`f${i}`), 0x00, 0x00]);
  return Buffer.concat([Buffer.from([...HEADER, ...TYPE]), section(2, [unsigned(count), ...each])]);
}

// A module whose memory has this data at this address.
export function movedData(at, data) {
  return Buffer.concat([Buffer.from([...HEADER, 0x05, 0x03, 0x01, 0x00, 0x14]), section(11, [unsigned(1), [0x00, 0x41, ...number(at), 0x0b], unsigned(data.length), data])]);
}
