// The lines of a text, which stays as bytes: only the lines that are shown become words.

class Lines {
  constructor(bytes) {
    this.bytes = bytes;
    this.starts = startsOf(bytes);
    this.count = this.starts.length - 1;
    this.kinds = this.kindsOfLines();
  }

  // The lines from one up to another, without their ends.
  slice(from, to) {
    const last = Math.min(to, this.count);
    if (from >= last) return [];
    const text = new TextDecoder().decode(this.bytes.subarray(this.starts[from], this.starts[last]));
    return text.replace(/\n$/, "").split("\n");
  }

  line(index) {
    return this.slice(index, index + 1)[0] ?? "";
  }

  // For each first word of lines, where its lines begin and how many there are: they stand one
  // after the other.
  kindsOfLines() {
    const kinds = new Map();
    let last = null;
    for (let line = 0; line < this.count; line++) {
      const begin = this.starts[line];
      if (last && this.beginsWith(begin, last.word)) last.count++;
      else {
        const end = this.bytes.subarray(begin, this.starts[line + 1]).findIndex(byte => byte === 32 || byte === 10);
        const word = this.bytes.slice(begin, end < 0 ? this.starts[line + 1] : begin + end);
        last = { word, first: line, count: 1 };
        const name = new TextDecoder().decode(word);
        if (!kinds.has(name)) kinds.set(name, last);
      }
    }
    return kinds;
  }

  // The first words of lines, each with how many lines it has and the first of them.
  told() {
    return Array.from(this.kinds, ([word, { first, count: lines }]) => ({ word, first, lines }));
  }

  beginsWith(begin, word) {
    for (let i = 0; i < word.length; i++) if (this.bytes[begin + i] !== word[i]) return false;
    return this.bytes[begin + word.length] === 32;
  }

  // The line of an item of a kind, by its number from 0, or null.
  lineOf(kind, index) {
    const found = this.kinds.get(kind);
    return found && index < found.count ? found.first + index : null;
  }

  // The next line from here on that has these words, in upper or lower case; after the last one the
  // first. With its number among the lines that have them, from 1 on, and how many these are. Null
  // where there is none.
  find(words, from) {
    if (this.sought?.words !== words) this.sought = { words, lines: this.linesWith(words) };
    const { lines } = this.sought;
    if (!lines.length) return null;
    const found = lines.findIndex(line => line >= from), index = Math.max(0, found);
    return { line: lines[index], number: index + 1, count: lines.length };
  }

  linesWith(words) {
    const wanted = new TextEncoder().encode(words).map(lowered), lines = [];
    if (!wanted.length) return lines;
    for (let at = placeOf(this.bytes, wanted, 0); at >= 0; ) {
      const line = this.lineAt(at);
      lines.push(line);
      at = placeOf(this.bytes, wanted, this.starts[line + 1]);
    }
    return lines;
  }

  // The line that has the byte at this place.
  lineAt(place) {
    let low = 0, high = this.count;
    while (high - low > 1) {
      const middle = (low + high) >> 1;
      if (this.starts[middle] <= place) low = middle;
      else high = middle;
    }
    return low;
  }
}

// Where each line begins, and the end of the text after them.
function startsOf(bytes) {
  let count = 0;
  for (let at = bytes.indexOf(10); at >= 0; at = bytes.indexOf(10, at + 1)) count++;
  const isOpen = bytes.length > 0 && bytes[bytes.length - 1] !== 10;
  const starts = new Float64Array(count + (isOpen ? 2 : 1));
  let line = 1;
  for (let at = bytes.indexOf(10); at >= 0; at = bytes.indexOf(10, at + 1)) starts[line++] = at + 1;
  if (isOpen) starts[line] = bytes.length;
  return starts;
}

// A letter of the alphabet in lower case; each other byte as it is.
const lowered = byte => (byte > 64 && byte < 91 ? byte + 32 : byte);

// Where these bytes, which are in lower case, come first from a place on, in upper or lower case; or -1.
function placeOf(bytes, wanted, from) {
  const last = bytes.length - wanted.length, [first] = wanted;
  for (let at = from; at <= last; at++) {
    if (lowered(bytes[at]) !== first) continue;
    let i = 1;
    while (i < wanted.length && lowered(bytes[at + i]) === wanted[i]) i++;
    if (i === wanted.length) return at;
  }
  return -1;
}
