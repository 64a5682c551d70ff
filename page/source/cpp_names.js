// Names that a compiler of C++ made, as they are in the source: by the Itanium ABI. What is not of
// this form, or of a rarer part of it, gives null.
//
// Reading makes a call of each part, and the call makes its words at the end: a part of which a
// pack of arguments is a part has other words for each of these. The words of a type are of two
// halves, around what is declared: `void (*` and `)(int)`.

const CPP_TYPES = {
  v: "void", w: "wchar_t", b: "bool", c: "char", a: "signed char", h: "unsigned char", s: "short", t: "unsigned short", i: "int", j: "unsigned int", l: "long",
  m: "unsigned long", x: "long long", y: "unsigned long long", n: "__int128", o: "unsigned __int128", f: "float", d: "double", e: "long double",
  g: "__float128", z: "...",
};
const CPP_D_TYPES = { d: "decimal64", e: "decimal128", f: "decimal32", h: "half", i: "char32_t", s: "char16_t", u: "char8_t", a: "auto", c: "decltype(auto)", n: "decltype(nullptr)" };
const CPP_OPERATORS = {
  nw: "new", na: "new[]", dl: "delete", da: "delete[]", aw: "co_await", ps: "+", ng: "-", ad: "&", de: "*", co: "~", pl: "+", mi: "-", ml: "*", dv: "/", rm: "%",
  an: "&", or: "|", eo: "^", aS: "=", pL: "+=", mI: "-=", mL: "*=", dV: "/=", rM: "%=", aN: "&=", oR: "|=", eO: "^=", ls: "<<", rs: ">>", lS: "<<=", rS: ">>=",
  eq: "==", ne: "!=", lt: "<", gt: ">", le: "<=", ge: ">=", ss: "<=>", nt: "!", aa: "&&", oo: "||", pp: "++", mm: "--", cm: ",", pm: "->*", pt: "->", cl: "()", ix: "[]",
  qu: "?",
};
const CPP_STANDARD = { a: "std::allocator", b: "std::basic_string", s: "std::string", i: "std::istream", o: "std::ostream", d: "std::iostream" };
// The class that a standard name is, with its own name, where a constructor or destructor follows.
const CPP_WHOLE = {
  s: ["std::basic_string<char, std::char_traits<char>, std::allocator<char>>", "basic_string"], i: ["std::basic_istream<char, std::char_traits<char>>", "basic_istream"],
  o: ["std::basic_ostream<char, std::char_traits<char>>", "basic_ostream"], d: ["std::basic_iostream<char, std::char_traits<char>>", "basic_iostream"],
};
const CPP_SPECIAL = {
  TV: "vtable for ", TT: "VTT for ", TI: "typeinfo for ", TS: "typeinfo name for ", TW: "TLS wrapper function for ", TH: "TLS init function for ", GV: "guard variable for ",
};
const CPP_SUFFIXES = { i: "", j: "u", l: "l", m: "ul", x: "ll", y: "ull" };

function cppName(name) {
  const [, words, clone] = /^_{1,2}Z([A-Za-z0-9_]+)(\..*)?$/.exec(name) ?? [];
  if (!words) return null;
  try {
    const reader = new CppName(words), read = reader.encoding(true);
    if (reader.at < words.length) return null;
    return textOf(read()) + (clone ? ` [clone ${clone}]` : "");
  } catch (error) {
    if (error instanceof NotOfThisForm || error instanceof RangeError) return null;
    throw error;
  }
}

const textOf = ({ left, right, isFunction }) => `${left}${isFunction ? " " : ""}${right}`;
const plainly = (left, more = {}) => ({ left, right: "", ...more });
// What is of a function or an array stands in parentheses.
const pointed = ({ left, right, isOpen }, sign) => (isOpen ? { left: `${left} (${sign}`, right: `)${right}` } : { left: left + sign, right });

class CppName extends CppExpressions {
  // The template arguments of a name inside of another one are its own.
  inner() {
    const { own } = this, read = this.encoding(false);
    this.own = own;
    return read;
  }

  encoding(isOuter) {
    const special = this.special();
    if (special) return special;
    this.own = [];
    const name = this.name(true), scope = this.own, isData = this.isAtEnd();
    const result = !isData && name.isTemplate && !name.isMade ? this.type() : null, takes = isData ? null : this.parameters();
    const make = () => {
      const { left, quals = "" } = name(), words = `${left}${takes ? `(${this.listed(takes)})` : ""}${quals}`;
      if (!result || !isOuter) return this.made(plainly(words));
      const { left: before, right: after } = result();
      return this.made(plainly(`${before}${after ? "" : " "}${words}${after}`));
    };
    return () => this.within({ scope, isInLambda: false, pack: null }, make);
  }

  isAtEnd() {
    return this.at >= this.words.length || "E.".includes(this.words[this.at]);
  }

  special() {
    const two = this.words.slice(this.at, this.at + 2);
    if (CPP_SPECIAL[two]) {
      this.at += 2;
      const of = two[0] === "G" || two === "TW" || two === "TH" ? this.name(false) : this.type();
      return () => this.made(plainly(CPP_SPECIAL[two] + textOf(of())));
    }
    if (two === "Th" || two === "Tv") {
      this.at += 1;
      this.offset();
      const of = this.encoding(true);
      return () => this.made(plainly(`${two === "Th" ? "non-virtual" : "virtual"} thunk to ${textOf(of())}`));
    }
    if (two !== "TC") return null;
    this.at += 2;
    const whole = this.type();
    this.integer();
    this.expect("_");
    const part = this.type();
    return () => this.made(plainly(`construction vtable for ${textOf(part())}-in-${textOf(whole())}`));
  }

  offset() {
    const isVirtual = this.next() === "v";
    this.integer();
    this.expect("_");
    if (!isVirtual) return;
    this.integer();
    this.expect("_");
  }

  // Types up to the end; a single void is none.
  parameters() {
    const types = [];
    while (!this.isAtEnd()) types.push(this.type());
    return types;
  }

  listed(types) {
    const words = this.wordsOf(types);
    return words === "void" ? "" : words;
  }

  wordsOf(types) {
    return types.flatMap(type => this.expanded(type)).join(", ");
  }

  // `isOwn` where the template arguments are those that the types behind the name mean.
  name(isOwn) {
    const letter = this.words[this.at];
    if (letter === "N") return this.nested(isOwn);
    if (letter === "Z") return this.local(isOwn);
    let name;
    if (letter === "S" && this.words[this.at + 1] !== "t") name = this.substitution();
    else {
      const isStandard = this.eat("St"), part = this.unqualified(null);
      name = isStandard ? this.joined(() => plainly("std"), part) : part;
      if (this.words[this.at] === "I") this.seen.push(name);
    }
    return this.words[this.at] === "I" ? this.withArguments(name, isOwn) : name;
  }

  withArguments(name, isOwn) {
    const list = this.templateArguments(isOwn);
    const made = () => {
      const { left, base } = name(), words = this.wordsOf(list);
      return this.made(plainly(`${left}${left.endsWith("<") ? " " : ""}<${words}>`, { base }));
    };
    return Object.assign(made, { isTemplate: true, isMade: name.isMade });
  }

  joined(scope, part) {
    const made = () => this.made(plainly(`${scope().left}::${part().left}`, { base: part().base }));
    return Object.assign(made, { isMade: part.isMade });
  }

  nested(isOwn) {
    this.expect("N");
    const quals = this.qualifiers(), reference = this.eat("R") ? " &" : this.eat("O") ? " &&" : "";
    let name = null, isLast = false;
    while (!this.eat("E")) {
      const letter = this.words[this.at];
      isLast = false;
      if (letter === "S" && this.words[this.at + 1] !== "t") {
        name = this.substitution("CD".includes(this.words[this.at + 2]));
        continue;
      }
      if (this.eat("M")) continue;
      if (this.eat("St")) name = () => plainly("std");
      else {
        if (letter === "I") name = this.withArguments(name ?? this.fail(), isOwn);
        else if (letter === "T") name = this.templateParameter();
        else if (letter === "D" && "tT".includes(this.words[this.at + 1])) name = this.type();
        else {
          const part = this.unqualified(name);
          name = name ? this.joined(name, part) : part;
        }
        this.seen.push(name);
        isLast = true;
      }
    }
    // The whole name is no part of another one by itself.
    if (isLast) this.seen.pop();
    const whole = name ?? this.fail(), made = () => ({ ...whole(), quals: quals + reference });
    return Object.assign(made, { isTemplate: whole.isTemplate, isMade: whole.isMade });
  }

  local(isOwn) {
    this.expect("Z");
    const of = this.inner();
    this.expect("E");
    if (this.eat("s")) {
      this.discriminator();
      return () => this.made(plainly(`${textOf(of())}::string literal`));
    }
    if (this.eat("d")) this.fail();
    const name = this.name(isOwn);
    this.discriminator();
    const made = () => {
      const { quals, base, left } = name();
      return this.made(plainly(`${textOf(of())}::${left}`, { base, quals }));
    };
    return Object.assign(made, { isTemplate: name.isTemplate, isMade: name.isMade });
  }

  discriminator() {
    if (this.eat("__")) {
      this.digits();
      this.expect("_");
    } else if (this.eat("_") && !/\d/.test(this.next())) this.fail();
  }

  // A name without what it is in; of a constructor and destructor the name of the class is taken from that.
  unqualified(scope) {
    this.eat("L");
    const letter = this.words[this.at];
    let name;
    if (/\d/.test(letter)) name = this.sourceName();
    else if (letter === "U") name = this.unnamed();
    else if ((letter === "C" || letter === "D") && scope) name = this.structor(scope);
    else name = this.operatorName();
    while (this.eat("B")) {
      const before = name, tag = this.source();
      name = Object.assign(() => this.made(plainly(`${before().left}[abi:${tag}]`, { base: before().base })), { isMade: before.isMade });
    }
    return name;
  }

  source() {
    const length = this.digits(), from = this.at;
    this.at += length;
    if (!length || this.at > this.words.length) this.fail();
    return this.words.slice(from, this.at);
  }

  sourceName() {
    const words = this.source(), name = /^_GLOBAL_[._$]N/.test(words) ? "(anonymous namespace)" : words;
    return () => plainly(name, { base: name });
  }

  structor(scope) {
    const kind = this.next(), isOfBase = this.eat("I"), number = this.next();
    if (!/[0-5]/.test(number) || isOfBase) this.fail();
    const made = () => plainly(`${kind === "D" ? "~" : ""}${scope().base ?? this.fail()}`);
    return Object.assign(made, { isMade: true });
  }

  unnamed() {
    this.expect("U");
    const isLambda = this.next() === "l", takes = isLambda ? this.parameters() : [];
    if (isLambda) this.expect("E");
    else if (this.words[this.at - 1] !== "t") this.fail();
    const number = this.eat("_") ? 1 : this.digits() + 2;
    if (number > 1) this.expect("_");
    const made = () => {
      const words = isLambda ? this.within({ isInLambda: true }, () => `{lambda(${this.listed(takes)})#${number}}`) : `{unnamed type#${number}}`;
      return plainly(words, { base: words });
    };
    return made;
  }

  operatorName() {
    const two = this.words.slice(this.at, this.at + 2);
    this.at += 2;
    if (two === "li") {
      const suffix = this.source();
      return () => plainly(`operator"" ${suffix}`);
    }
    if (two === "cv") {
      const type = this.type();
      return Object.assign(() => plainly(`operator ${textOf(type())}`), { isMade: true });
    }
    const sign = CPP_OPERATORS[two] ?? this.fail();
    return () => plainly(`operator${/^[a-z]/.test(sign) ? " " : ""}${sign}`);
  }
}
