// Names that a compiler of Rust made, as they are in the source. There are two ways: the older one
// begins with _ZN and ends with a hash, the newer one (v0, RFC 2603) begins with _R. What is not of
// one of these forms gives null.

function rustName(name) {
  const plain = name.replace(/\.llvm\.[0-9A-F@]+$/, "");
  const older = /^_{1,2}ZN(.*17h[0-9a-f]{16})E$/.exec(plain);
  if (older) return olderRustName(older[1]);
  const newer = /^_{1,2}R([A-Z][0-9A-Za-z_]*)(?:[.$].*)?$/.exec(plain);
  return newer ? newerRustName(newer[1]) : null;
}

const RUST_SIGNS = { SP: "@", BP: "*", RF: "&", LT: "<", GT: ">", LP: "(", RP: ")", C: "," };

// Parts that each follow their length. The last one is the hash.
function olderRustName(words) {
  const parts = [];
  for (let at = 0; at < words.length; ) {
    const [digits] = /^[1-9]\d*/.exec(words.slice(at)) ?? [];
    if (!digits) return null;
    const from = at + digits.length, to = from + Number(digits);
    if (to > words.length) return null;
    parts.push(words.slice(from, to));
    at = to;
  }
  return parts.length > 1 ? parts.slice(0, -1).map(olderRustPart).join("::") : null;
}

function olderRustPart(part) {
  const sign = (found, word) => RUST_SIGNS[word] ?? (/^u[0-9a-f]{1,6}$/.test(word) && parseInt(word.slice(1), 16) < 0x110000 ? String.fromCodePoint(parseInt(word.slice(1), 16)) : found);
  return part.replace(/^_\$/, "$").replace(/\.\./g, "::").replace(/\$([A-Za-z0-9]+)\$/g, sign);
}

const RUST_TYPES = {
  a: "i8", b: "bool", c: "char", d: "f64", e: "str", f: "f32", h: "u8", i: "isize", j: "usize", l: "i32", m: "u32", n: "i128", o: "u128", p: "_", s: "i16",
  t: "u16", u: "()", v: "...", x: "i64", y: "u64", z: "!",
};
// References back may double a name again and again, so there is an end.
const MOST_STEPS = 2000;

class NotOfThisForm extends Error {}

function newerRustName(words) {
  try {
    return new NewerRustName(words).whole();
  } catch (error) {
    if (error instanceof NotOfThisForm || error instanceof RangeError) return null;
    throw error;
  }
}

class NewerRustName {
  constructor(words) {
    Object.assign(this, { words, at: 0, lifetimes: 0, steps: 0 });
  }

  // A path; behind it may come the crate that made this copy of it.
  whole() {
    const path = this.path(true);
    if (this.at < this.words.length) this.path(false);
    if (this.at < this.words.length) throw new NotOfThisForm();
    return path;
  }

  next() {
    if (this.at >= this.words.length) throw new NotOfThisForm();
    return this.words[this.at++];
  }

  eat(letter) {
    if (this.words[this.at] !== letter) return false;
    this.at++;
    return true;
  }

  // A number in base 62, behind which an underscore stands: 0 where there is none.
  number() {
    if (this.eat("_")) return 0;
    let value = 0;
    for (;;) {
      const letter = this.next();
      if (letter === "_") return value + 1;
      const digit = "0123456789abcdefghijklmnopqrstuvwxyzABCDEFGHIJKLMNOPQRSTUVWXYZ".indexOf(letter);
      if (digit < 0) throw new NotOfThisForm();
      value = value * 62 + digit;
    }
  }

  // One more than the number behind a letter, or 0.
  optional(letter) {
    return this.eat(letter) ? this.number() + 1 : 0;
  }

  decimal() {
    const [digits] = /^(0|[1-9]\d*)/.exec(this.words.slice(this.at)) ?? [];
    if (digits === undefined) throw new NotOfThisForm();
    this.at += digits.length;
    return Number(digits);
  }

  identifier() {
    const isCoded = this.eat("u"), length = this.decimal();
    this.eat("_");
    const from = this.at;
    this.at += length;
    if (this.at > this.words.length) throw new NotOfThisForm();
    const words = this.words.slice(from, this.at);
    return isCoded ? decodedName(words) : words;
  }

  // What another part of the name says, read again.
  back(read) {
    const here = this.at - 1, to = this.number();
    if (to >= here || ++this.steps > MOST_STEPS) throw new NotOfThisForm();
    const after = this.at;
    this.at = to;
    const words = read();
    this.at = after;
    return words;
  }

  // Words up to the letter E.
  list(read) {
    const words = [];
    while (!this.eat("E")) words.push(read());
    return words;
  }

  // A path, in an expression or in a type: there no colons stand before the arguments.
  path(isValue) {
    if (++this.steps > MOST_STEPS) throw new NotOfThisForm();
    switch (this.next()) {
      case "C":
        this.optional("s");
        return this.identifier();
      case "M":
        this.implementation();
        return `<${this.type()}>`;
      case "X":
        this.implementation();
        return `<${this.type()} as ${this.path(false)}>`;
      case "Y": return `<${this.type()} as ${this.path(false)}>`;
      case "N": return this.nested(isValue);
      case "I": {
        const path = this.path(isValue), colons = isValue ? "::" : "";
        return `${path}${colons}<${this.list(() => this.argument()).join(", ")}>`;
      }
      case "B": return this.back(() => this.path(isValue));
      default: throw new NotOfThisForm();
    }
  }

  // Where an implementation stands says nothing that is shown.
  implementation() {
    this.optional("s");
    this.path(false);
  }

  // In a namespace: a capital letter is one of the compiler, as of closures.
  nested(isValue) {
    const space = this.next();
    if (!/[A-Za-z]/.test(space)) throw new NotOfThisForm();
    const path = this.path(isValue), number = this.optional("s"), name = this.identifier();
    if (space === space.toLowerCase()) return name ? `${path}::${name}` : path;
    const kind = { C: "closure", S: "shim" }[space] ?? space;
    return `${path}::{${kind}${name ? `:${name}` : ""}#${number}}`;
  }

  argument() {
    if (this.eat("L")) return this.lifetime(this.number());
    return this.eat("K") ? this.constant(false) : this.type();
  }

  // Lifetimes are numbered from the innermost one.
  lifetime(number) {
    if (number === 0) return "'_";
    const depth = this.lifetimes - number;
    if (depth < 0) throw new NotOfThisForm();
    return depth < 26 ? `'${String.fromCharCode(97 + depth)}` : `'_${depth}`;
  }

  // What stands inside `for<..>`.
  bound(read) {
    const count = this.optional("G"), begun = this.lifetimes;
    if (count > 64) throw new NotOfThisForm();
    this.lifetimes += count;
    const names = Array.from({ length: count }, (_, i) => this.lifetime(count - i)), words = read();
    this.lifetimes = begun;
    return names.length ? `for<${names.join(", ")}> ${words}` : words;
  }

  type() {
    if (++this.steps > MOST_STEPS) throw new NotOfThisForm();
    const letter = this.next();
    if (RUST_TYPES[letter]) return RUST_TYPES[letter];
    switch (letter) {
      case "R": return `&${this.reference()}${this.type()}`;
      case "Q": return `&${this.reference()}mut ${this.type()}`;
      case "P": return `*const ${this.type()}`;
      case "O": return `*mut ${this.type()}`;
      case "A": return `[${this.type()}; ${this.constant(true)}]`;
      case "S": return `[${this.type()}]`;
      case "T": {
        const types = this.list(() => this.type());
        return types.length === 1 ? `(${types[0]},)` : `(${types.join(", ")})`;
      }
      case "F": return this.bound(() => this.signature());
      case "D": return this.dynamic();
      case "B": return this.back(() => this.type());
      default:
        this.at--;
        return this.path(false);
    }
  }

  reference() {
    const number = this.eat("L") ? this.number() : 0;
    return number ? `${this.lifetime(number)} ` : "";
  }

  signature() {
    const unsafe = this.eat("U") ? "unsafe " : "", convention = this.eat("K") ? `extern "${this.eat("C") ? "C" : this.identifier().replaceAll("_", "-")}" ` : "";
    const takes = this.list(() => this.type()).join(", "), gives = this.eat("u") ? "" : ` -> ${this.type()}`;
    return `${unsafe}${convention}fn(${takes})${gives}`;
  }

  dynamic() {
    const words = this.bound(() => `${this.list(() => this.trait()).join(" + ")}`);
    if (!this.eat("L")) throw new NotOfThisForm();
    const number = this.number();
    return `dyn ${words}${number ? ` + ${this.lifetime(number)}` : ""}`;
  }

  // A trait, with the types that it binds among its arguments.
  trait() {
    const path = this.path(false), bindings = [];
    while (this.eat("p")) bindings.push(`${this.identifier()} = ${this.type()}`);
    if (!bindings.length) return path;
    return path.endsWith(">") && !path.startsWith("<") ? `${path.slice(0, -1)}, ${bindings.join(", ")}>` : `${path}<${bindings.join(", ")}>`;
  }

  // A constant: of what stands inside another one nothing is put in braces.
  constant(isInside) {
    const letter = this.next();
    if (letter === "p") return "_";
    if (letter === "B") return this.back(() => this.constant(isInside));
    const braced = words => (isInside ? words : `{${words}}`);
    switch (letter) {
      case "e": return braced(`*${this.text()}`);
      case "R": return this.eat("e") ? this.text() : braced(`&${this.constant(true)}`);
      case "Q": return braced(`&mut ${this.constant(true)}`);
      case "A": return braced(`[${this.list(() => this.constant(true)).join(", ")}]`);
      case "T": {
        const parts = this.list(() => this.constant(true));
        return braced(parts.length === 1 ? `(${parts[0]},)` : `(${parts.join(", ")})`);
      }
      case "V": return braced(this.variant());
      default: return this.simpleConstant(letter);
    }
  }

  simpleConstant(letter) {
    const isNegative = "asxlni".includes(letter) && this.eat("n"), number = this.hex();
    if ("asxlnihtmyoj".includes(letter)) return `${isNegative ? "-" : ""}${BigInt(`0x${number || "0"}`)}`;
    if (letter === "b" && (number === "0" || number === "1")) return number === "1" ? "true" : "false";
    if (letter === "c" && parseInt(number, 16) < 0x110000) return `'${String.fromCodePoint(parseInt(number, 16))}'`;
    throw new NotOfThisForm();
  }

  hex() {
    const [digits] = /^[0-9a-f]*_/.exec(this.words.slice(this.at)) ?? [];
    if (digits === undefined) throw new NotOfThisForm();
    this.at += digits.length;
    return digits.slice(0, -1);
  }

  text() {
    const digits = this.hex(), bytes = Uint8Array.from(digits.match(/../g) ?? [], pair => parseInt(pair, 16));
    return JSON.stringify(new TextDecoder().decode(bytes));
  }

  variant() {
    const letter = this.next();
    if (letter === "U") return this.path(true);
    if (letter === "T") return `${this.path(true)}(${this.list(() => this.constant(true)).join(", ")})`;
    if (letter !== "S") throw new NotOfThisForm();
    const field = () => {
      this.optional("s");
      return `${this.identifier()}: ${this.constant(true)}`;
    };
    return `${this.path(true)} { ${this.list(field).join(", ")} }`;
  }
}

// A name with other letters than those of the alphabet, as punycode (RFC 3492) has it, with an
// underscore in place of the last hyphen.
function decodedName(words) {
  const last = words.lastIndexOf("_"), letters = last > 0 ? [...words.slice(0, last)] : [], digits = words.slice(last + 1);
  let place = 0, sign = 128, bias = 72, isFirst = true;
  for (let at = 0; at < digits.length; ) {
    const before = place;
    for (let weight = 1, step = 36; ; step += 36) {
      const digit = "abcdefghijklmnopqrstuvwxyz0123456789".indexOf(digits[at++] ?? "?");
      if (digit < 0) throw new NotOfThisForm();
      place += digit * weight;
      const least = Math.min(26, Math.max(1, step - bias));
      if (digit < least) break;
      weight *= 36 - least;
    }
    let delta = Math.floor((place - before) / (isFirst ? 700 : 2));
    const length = letters.length + 1;
    delta += Math.floor(delta / length);
    for (bias = 0; delta > 455; bias += 36) delta = Math.floor(delta / 35);
    bias += Math.floor((36 * delta) / (delta + 38));
    sign += Math.floor(place / length);
    place %= length;
    if (sign > 0x10ffff) throw new NotOfThisForm();
    letters.splice(place++, 0, String.fromCodePoint(sign));
    isFirst = false;
  }
  return letters.join("");
}
