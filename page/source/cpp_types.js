// The types and expressions of names that a compiler of C++ made: what `cpp_names.js` reads names of.

// Packs and references back may double a name again and again, so there is an end: of the parts
// that are made, and of the letters of one.
const MOST_PARTS = 3000;
const MOST_LETTERS = 4000;

class CppTypes {
  constructor(words) {
    Object.assign(this, { words, at: 0, depth: 0, steps: 0, seen: [], own: [], scope: [], pack: null, isInLambda: false });
  }

  fail() {
    throw new NotOfThisForm();
  }

  next() {
    if (this.at >= this.words.length) this.fail();
    return this.words[this.at++];
  }

  eat(words) {
    if (!this.words.startsWith(words, this.at)) return false;
    this.at += words.length;
    return true;
  }

  expect(words) {
    if (!this.eat(words)) this.fail();
  }

  digits() {
    const [digits] = /^\d+/.exec(this.words.slice(this.at, this.at + 12)) ?? [];
    if (digits === undefined) this.fail();
    this.at += digits.length;
    return Number(digits);
  }

  integer() {
    const isNegative = this.eat("n"), from = this.at;
    while (/\d/.test(this.words[this.at] ?? "")) this.at++;
    if (from === this.at) this.fail();
    return `${isNegative ? "-" : ""}${this.words.slice(from, this.at)}`;
  }

  // A part that was made; there is an end of them.
  made(node) {
    if (++this.steps > MOST_PARTS || node.left.length + node.right.length > MOST_LETTERS) this.fail();
    return node;
  }

  qualifiers() {
    let words = "";
    for (const [letter, word] of [["r", " restrict"], ["V", " volatile"], ["K", " const"]]) if (this.eat(letter)) words = word + words;
    return words;
  }

  // A type, which later parts of the name may refer to.
  type() {
    if (++this.depth > 200) this.fail();
    const letter = this.words[this.at] ?? this.fail(), plain = CPP_TYPES[letter];
    let type;
    if (plain) {
      this.at++;
      type = () => plainly(plain);
    } else if (letter === "S" && this.words[this.at + 1] !== "t") type = this.referred();
    else {
      const known = this.compound(letter);
      type = known.type;
      if (!known.isPlain) this.seen.push(type);
    }
    this.depth--;
    return type;
  }

  referred() {
    const name = this.substitution();
    if (this.words[this.at] !== "I") return name;
    const whole = this.withArguments(name, false);
    this.seen.push(whole);
    return whole;
  }

  compound(letter) {
    switch (letter) {
      case "r": case "V": case "K": return { type: this.qualified() };
      case "P": return { type: this.wrapped(node => pointed(node, "*")) };
      case "R": return { type: this.reference("&") };
      case "O": return { type: this.reference("&&") };
      case "C": return { type: this.wrapped(({ left, right }) => ({ left: `${left} _Complex`, right })) };
      case "F": return { type: this.functionType() };
      case "A": return { type: this.array() };
      case "M": return { type: this.memberPointer() };
      case "T": return { type: this.parameterType() };
      case "D": return this.laterType();
      case "u": {
        this.at++;
        const name = this.source();
        return { type: () => plainly(name) };
      }
      default: {
        if (!/[0-9NZSU]/.test(letter)) this.fail();
        const name = this.name(false);
        return { type: () => plainly(name().left, { base: name().base }) };
      }
    }
  }

  qualified() {
    // A function that is qualified is one type.
    const words = this.qualifiers(), type = this.words[this.at] === "F" ? this.functionType() : this.type();
    return () => {
      const { left, right, isFunction, isOpen } = type();
      return this.made(isFunction ? { left, right: right + words, isFunction, isOpen } : { left: left.endsWith(words) ? left : left + words, right, isOpen });
    };
  }

  wrapped(change) {
    this.at++;
    const type = this.type();
    return () => this.made(change(type()));
  }

  // A reference to a reference is one reference.
  reference(sign) {
    this.at++;
    const type = this.type();
    return () => {
      const node = type(), { sign: inner } = node;
      if (!inner) return this.made({ ...pointed(node, sign), sign });
      return inner === sign || inner === "&" ? node : this.made({ ...node, left: node.left.replace(/&&$/, "&"), sign: "&" });
    };
  }

  functionType(end = "") {
    this.expect("F");
    this.eat("Y");
    const result = this.type(), takes = [];
    let reference = "";
    while (!this.eat("E")) {
      if (this.eat("RE")) reference = " &";
      else if (this.eat("OE")) reference = " &&";
      else takes.push(this.type());
      if (reference) break;
    }
    return () => {
      const { left, right } = result();
      return this.made({ left, right: `(${this.listed(takes)})${reference}${end}${right}`, isFunction: true, isOpen: true });
    };
  }

  array() {
    this.at++;
    const size = this.words[this.at] === "_" ? () => plainly("") : /\d/.test(this.words[this.at] ?? "") ? this.plainNumber() : this.expression();
    this.expect("_");
    const type = this.type();
    return () => {
      const { left, right } = type();
      return this.made({ left, right: ` [${textOf(size())}]${right.trimStart()}`, isOpen: true });
    };
  }

  plainNumber() {
    const words = this.integer();
    return () => plainly(words);
  }

  memberPointer() {
    this.at++;
    const of = this.type(), type = this.type();
    return () => {
      const node = type(), sign = `${textOf(of())}::*`;
      return this.made(node.isOpen ? pointed(node, sign) : { left: `${node.left} ${sign}`, right: node.right });
    };
  }

  parameterType() {
    const parameter = this.templateParameter();
    if (this.words[this.at] !== "I") return parameter;
    this.seen.push(parameter);
    return this.withArguments(parameter, false);
  }

  laterType() {
    const kind = this.words[this.at + 1], plain = CPP_D_TYPES[kind];
    this.at += 2;
    if (plain) return { type: () => plainly(plain), isPlain: true };
    switch (kind) {
      case "p": return { type: this.expansion(this.type()) };
      case "o": return { type: this.functionType(" noexcept") };
      case "t": case "T": {
        const inside = this.expression();
        this.expect("E");
        return { type: () => this.made(plainly(`decltype (${textOf(inside())})`)) };
      }
      case "v": {
        const size = this.plainNumber();
        this.expect("_");
        const type = this.type();
        return { type: () => this.made(plainly(`${textOf(type())} __vector(${size().left})`)) };
      }
      case "F": {
        const bits = this.integer();
        if (!this.eat("_") && !this.eat("b")) this.fail();
        return { type: () => plainly(this.words[this.at - 1] === "b" ? "std::bfloat16_t" : `_Float${bits}`), isPlain: true };
      }
      default: return this.fail();
    }
  }

  // What was read before: by its number, or a name of the standard library. `isClass` where a
  // constructor or destructor follows.
  substitution(isClass = false) {
    this.expect("S");
    const letter = this.words[this.at] ?? "", standard = CPP_STANDARD[letter];
    if (standard) {
      this.at++;
      const [words, base] = (isClass && CPP_WHOLE[letter]) || [standard, standard.slice("std::".length)];
      const made = () => plainly(words, { base });
      if (this.words[this.at] !== "B") return made;
      this.at++;
      const tag = this.source(), tagged = () => plainly(`${words}[abi:${tag}]`, { base });
      this.seen.push(tagged);
      return tagged;
    }
    return this.seen[this.base36()] ?? this.fail();
  }

  base36() {
    const [, digits] = /^([0-9A-Z]*)_/.exec(this.words.slice(this.at, this.at + 8)) ?? this.fail();
    this.at += digits.length + 1;
    return digits === "" ? 0 : parseInt(digits, 36) + 1;
  }

  templateParameter() {
    this.expect("T");
    const [, digits] = /^(\d*)_/.exec(this.words.slice(this.at, this.at + 8)) ?? this.fail();
    this.at += digits.length + 1;
    const index = digits === "" ? 0 : Number(digits) + 1;
    return () => this.argument(index);
  }

  // An argument of the function whose words are being made. Those of a lambda have no name.
  argument(index) {
    if (this.isInLambda) return plainly(`auto:${index + 1}`);
    const found = this.scope[index] ?? this.fail();
    if (!found.pack) return found();
    if (!this.pack) return this.made(plainly(this.wordsOf(found.pack)));
    this.pack.length = found.pack.length;
    return found.pack.length ? (found.pack[this.pack.index] ?? this.fail())() : plainly("");
  }

  // What is made while something else is in force.
  within(state, make) {
    const before = Object.fromEntries(Object.keys(state).map(key => [key, this[key]]));
    Object.assign(this, state);
    const node = make();
    return Object.assign(this, before) && node;
  }

  // A pattern, once for each argument of the pack in it.
  expansion(pattern) {
    return Object.assign(() => this.made(plainly(this.expanded(this.expansion(pattern)).join(", "))), { pattern });
  }

  // The words of an argument or type: of a pack all of them.
  expanded(type) {
    if (type.pack) return type.pack.flatMap(it => this.expanded(it));
    if (!type.pattern) return [textOf(this.made(type()))];
    const words = [], pack = { index: 0, length: null }, make = () => textOf(this.made(this.within({ pack }, type.pattern)));
    const first = make();
    if (pack.length === null) return [`${first}...`];
    for (; pack.index < pack.length; pack.index++) words.push(make());
    return words;
  }

  templateArguments(isOwn) {
    this.expect("I");
    const list = [];
    if (isOwn) this.own = [];
    while (!this.eat("E")) {
      const argument = this.templateArgument();
      list.push(argument);
      if (isOwn) this.own.push(argument);
    }
    return list;
  }

  templateArgument() {
    if (this.eat("J")) {
      const pack = [];
      while (!this.eat("E")) pack.push(this.templateArgument());
      return Object.assign(() => plainly(this.wordsOf(pack)), { pack });
    }
    if (this.words[this.at] === "L") return this.literal();
    if (!this.eat("X")) return this.type();
    const inside = this.expression();
    this.expect("E");
    return () => this.made(plainly(`(${textOf(inside())})`.replace(/^\(\((.*)\)\)$/, "($1)")));
  }
}

class CppExpressions extends CppTypes {
  // A literal: a number of some type, or a function.
  literal() {
    this.expect("L");
    if (this.eat("_Z") || this.eat("Z")) {
      const of = this.inner();
      this.expect("E");
      return of;
    }
    const letter = this.words[this.at], suffix = CPP_SUFFIXES[letter], type = this.type();
    const number = this.eat("E") ? null : this.integer();
    if (number !== null) this.expect("E");
    if (letter === "b" && number !== null) return () => plainly({ 0: "false", 1: "true" }[number] ?? `(bool)${number}`);
    if (suffix !== undefined && number !== null) return () => plainly(number + suffix);
    if (number === null) return () => (textOf(type()) === "decltype(nullptr)" ? plainly("nullptr") : this.fail());
    return () => this.made(plainly(`(${textOf(type())})${number}`));
  }

  // An expression. Those that are rare are not read.
  expression() {
    if (++this.depth > 200) this.fail();
    const read = this.expressionOf(this.words[this.at] ?? this.fail());
    this.depth--;
    return read;
  }

  expressionOf(letter) {
    if (letter === "L") return this.literal();
    if (letter === "T") return this.templateParameter();
    return this.fail();
  }
}
