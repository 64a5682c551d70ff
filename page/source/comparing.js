// Two plans side by side.

// Gives each type of a plan a number that equal types of all plans share. A group of types is made
// into words in which a type of the group is named by its place there, and another one by its
// number: two groups are equal where these words are. Types that a group names stand before it, so
// they have their numbers, and each group is looked at once.
class Numbering {
  constructor() {
    this.known = new Map();
    this.next = 0;
  }

  numbersOf(told) {
    const { groups } = told.plan, numbers = new Float64Array(told.plan.types);
    for (let g = 0; g < groups.length; g++) {
      const { begin, end } = groups.get(g), words = [];
      for (let index = begin; index < end; index++) words.push(plainWords(told.typeWords(index), begin, end, numbers));
      const key = words.join("\n");
      if (!this.known.has(key)) {
        this.known.set(key, this.next);
        this.next += end - begin;
      }
      for (let index = begin; index < end; index++) numbers[index] = this.known.get(key) + index - begin;
    }
    return numbers;
  }
}

function plainWords(words, begin, end, numbers) {
  const bare = words.replace(/ trampoline \d+$/, "");
  return bare.replace(/\(module (\d+)\)/g, (_, digits) => (begin <= digits && digits < end ? `(own ${digits - begin})` : `(type ${numbers[digits]})`));
}

class Comparison {
  constructor(one, other) {
    Object.assign(this, { one, other });
    const numbering = new Numbering(), ours = numbering.numbersOf(one), theirs = numbering.numbersOf(other);
    const firstOf = numbers => numbers.reduceRight((known, number, index) => known.set(number, index), new Map());
    const ownFirst = firstOf(ours), otherFirst = firstOf(theirs);
    // Each row: a type of one module or null, and the first type of the other that is equal, or null.
    this.pairs = Array.from(ours, (number, index) => [index, otherFirst.get(number) ?? null]);
    this.common = this.pairs.filter(([, found]) => found !== null).length;
    theirs.forEach((number, index) => ownFirst.has(number) || this.pairs.push([null, index]));
    this.onlyOther = this.pairs.length - one.plan.types;
  }

  summary() {
    const { one, common, onlyOther } = this;
    return { common, onlyOne: one.plan.types - common, onlyOther, types: this.pairs.length, segments: this.segmentCount(), images: this.images(), regions: this.regions(), counts: this.counts() };
  }

  types(from, to) {
    return this.pairs.slice(from, to).map(([ours, theirs]) => ({ one: ours, other: theirs, words: ours === null ? this.other.typeWords(theirs) : this.one.typeWords(ours) }));
  }

  // The images of each memory that one of them has: where they begin, and where they differ, by
  // address and from the begin of their data on. The first hundred memories are looked at.
  images() {
    const last = Math.min(100, Math.max(this.one.plan.memories.length, this.other.plan.memories.length)), rows = [];
    for (let memory = 0; memory < last; memory++) {
      const [ours, theirs] = [this.one, this.other].map(told => imageOf(told, memory));
      if (ours || theirs) rows.push({ memory, one: ours && placeWords(ours), other: theirs && placeWords(theirs), ...difference(ours, theirs), relative: relativeDifference(ours, theirs) });
    }
    return rows;
  }

  segmentCount() {
    return Math.max(this.one.places.data.length, this.other.places.data.length);
  }

  // Data segments of both by their numbers, byte by byte from where each begins: wherever it is
  // written, and where it is not written at all.
  segments(from, to) {
    const told = (side, index) => (index < side.places.data.length ? { ...side.contents.line("data", index), preview: null } : null);
    const dataOf = (side, { bytes: { from: begin, to: end } }) => ({ at: 0, bytes: side.module.subarray(begin, end) });
    return Array.from({ length: Math.max(0, Math.min(to, this.segmentCount()) - from) }, (_, i) => {
      const [ours, theirs] = [told(this.one, from + i), told(this.other, from + i)];
      return { index: from + i, one: ours, other: theirs, ...(ours && theirs ? difference(dataOf(this.one, ours), dataOf(this.other, theirs)) : { differing: null, first: null }) };
    });
  }

  regions() {
    const [ours, theirs] = [this.one, this.other].map(told => told.summary().regions);
    return ours.map((region, i) => ({ name: region.name, line: region.line, one: [region.begin, region.size], other: [theirs[i].begin, theirs[i].size] }));
  }

  counts() {
    const names = ["functions", "tables", "memories", "globals", "tags"], rows = names.map(name => [name, this.one.plan.entities[name], this.other.plan.entities[name]]);
    const [ours, theirs] = [this.one, this.other].map(told => told.summary());
    return [...rows, ["types", ours.types, theirs.types], ["context, in bytes", ours.context, theirs.context], ["startup", ours.startup, theirs.startup]];
  }
}

function imageOf(told, memory) {
  if (!told.plan.images_made || memory >= told.plan.memories.length || !told.imagesOf.count(memory)) return null;
  const { offset, runtime } = told.plan.images.get(told.imagesOf.of(memory)[0]);
  return { at: Number(offset), runtime, bytes: told.runtime(runtime).view };
}

function placeWords({ at, bytes, runtime }) {
  return { at, length: bytes.length, runtime };
}

// How many bytes differ, and the first of them. Where an image ends the memory has zeros; where
// neither is nothing is looked at.
function difference(ours, theirs) {
  const ends = [ours, theirs].flatMap(it => (it ? [it.at, it.at + it.bytes.length] : [])).sort((one, other) => one - other);
  let differing = 0, first = null;
  for (let i = 1; i < ends.length; i++) {
    const [from, to] = [ends[i - 1], ends[i]], [one, other] = [ours, theirs].map(it => (it && it.at <= from && to <= it.at + it.bytes.length ? it.bytes.subarray(from - it.at, to - it.at) : null));
    for (let k = 0; k < to - from && (one || other); k++) {
      if ((one ? one[k] : 0) === (other ? other[k] : 0)) continue;
      differing++;
      first ??= from + k;
    }
  }
  return { differing, first };
}

// An image from its first byte that is not zero on: where its data begin. It begins itself at a page.
function fromData(image) {
  const begin = image.bytes.findIndex(byte => byte !== 0);
  return { begins: begin < 0 ? null : image.at + begin, at: 0, bytes: image.bytes.subarray(Math.max(0, begin)) };
}

// The same where both are laid so that their data begin at one place: a module that is linked to
// other addresses has its data elsewhere.
function relativeDifference(ours, theirs) {
  if (!ours || !theirs) return null;
  const [one, other] = [ours, theirs].map(fromData);
  return { ...difference(one, other), begins: [one.begins, other.begins] };
}
