// Reads bytes by the grammar of modules. What is planned is well formed, so nothing is checked here
// but that the bytes go on: those of a custom section may end too early, and those of a module that
// is refused.

// Reading stops here.
class Stop extends Error {}

class Cursor {
  constructor(bytes, at = 0, end = bytes.length) {
    Object.assign(this, { bytes, at, end });
  }

  byte() {
    if (this.at >= this.end) throw new Stop("the bytes end here, where more must come");
    return this.bytes[this.at++];
  }

  skip(length) {
    const left = this.end - this.at;
    if (length > left) throw new Stop(`${count(length, "byte")} must come here, and there ${isOrAre(left)} ${spoken(left)}`);
    this.at += length;
  }

  // A number without a sign, of at most 32 bits.
  count() {
    let value = 0;
    for (let place = 1; place <= 2 ** 28; place *= 128) {
      const byte = this.byte();
      value += (byte & 127) * place;
      if (byte < 128 && value < 2 ** 32) return value;
    }
    throw new Stop("a number does not fit in 32 bits");
  }

  // A number with a sign, as a BigInt.
  signed() {
    let value = 0n, bits = 0, byte = 128;
    for (; byte & 128; bits += 7) {
      byte = this.byte();
      value += BigInt(byte & 127) << BigInt(bits);
    }
    return BigInt.asIntN(bits, value);
  }

  name() {
    const length = this.count(), from = this.at;
    this.skip(length);
    try {
      return new TextDecoder("utf-8", { fatal: true, ignoreBOM: true }).decode(this.bytes.subarray(from, this.at));
    } catch {
      throw new Stop("a name is not text in UTF-8");
    }
  }
}

// How the parts of a module are stepped over: each `over` does it for one.
const overBytes = length => cursor => cursor.skip(length);
const overNumber = cursor => {
  while (cursor.byte() & 128);
};
const overName = cursor => cursor.skip(cursor.count());
const inOrder = (...parts) => cursor => parts.forEach(over => over(cursor));
const overList = over => cursor => {
  for (let i = cursor.count(); i > 0; i--) over(cursor);
};
// What comes behind a first byte, or a first number: nothing where it is none of these.
const byByte = parts => cursor => parts[cursor.byte()]?.(cursor);
const byNumber = parts => cursor => parts[cursor.count()]?.(cursor);

// A reference that is written in full has one number more: an index, or an abstract type.
const overValueType = byByte({ 0x63: overNumber, 0x64: overNumber });
// A field or a global: a type, and whether the value may change.
const overMutable = inOrder(overValueType, overBytes(1));
const COMPOSITES = { 0x60: inOrder(overList(overValueType), overList(overValueType)), 0x5f: overList(overMutable), 0x5e: overMutable, 0x5d: overNumber };
const overSubtype = inOrder(overList(overNumber), byByte(COMPOSITES));
// Or the head of a group of types, which follow it.
const GROUP = 0x4e;
const overType = byByte({ ...COMPOSITES, 0x50: overSubtype, 0x4f: overSubtype, [GROUP]: overNumber });

// Of a table or a memory: the least size, and by the flags the greatest one and the size of a page.
const overLimits = cursor => {
  const flags = cursor.byte();
  overNumber(cursor);
  if (flags & 1) overNumber(cursor);
  if (flags & 8) overNumber(cursor);
};
const overTableType = inOrder(overValueType, overLimits);
// What is imported, by its kind.
const overImported = byByte([overNumber, overTableType, overLimits, overMutable, inOrder(overBytes(1), overNumber)]);

// What comes behind the operators of constant expressions, by their codes.
const END = 0x0b, I32_CONST = 0x41, I64_CONST = 0x42;
const OPERATORS = {
  [I32_CONST]: overNumber, [I64_CONST]: overNumber, 0x43: overBytes(4), 0x44: overBytes(8), 0x23: overNumber, 0xd0: overNumber, 0xd2: overNumber,
  0xfb: byNumber({ 0: overNumber, 1: overNumber, 6: overNumber, 7: overNumber, 8: inOrder(overNumber, overNumber) }),
  0xfd: inOrder(overNumber, overBytes(16)),
};

function overExpression(cursor) {
  for (let code = cursor.byte(); code !== END; code = cursor.byte()) OPERATORS[code]?.(cursor);
}

// The address that an expression is, in words; null where it is more than one constant.
function addressAt(bytes, at) {
  const cursor = new Cursor(bytes, at), bits = { [I32_CONST]: 32, [I64_CONST]: 64 }[cursor.byte()];
  if (bits === undefined) return null;
  const address = BigInt.asUintN(bits, cursor.signed());
  return cursor.byte() === END ? spoken(address) : null;
}
