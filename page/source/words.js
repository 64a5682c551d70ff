// Words for numbers, sizes and types, for the page and for its worker.

const spoken = number => number.toLocaleString("en");
const plural = word => `${word.replace(/y$/, "ie")}s`;
const count = (number, one, more = plural(one)) => `${spoken(number)} ${number === 1 || number === 1n ? one : more}`;
const isOrAre = number => (number === 1 ? "is" : "are");
const hexOf = (number, digits = 1) => number.toString(16).toUpperCase().padStart(digits, "0");

function sizeWords(bytes) {
  for (const [unit, name] of [[2 ** 40, "TiB"], [2 ** 30, "GiB"], [2 ** 20, "MiB"], [2 ** 10, "KiB"]]) {
    if (bytes >= unit) return `${(bytes / unit).toLocaleString("en", { maximumFractionDigits: 1 })} ${name}`;
  }
  return count(bytes, "byte");
}

const timeWords = ms => (ms < 1000 ? `${ms.toFixed(1)} ms` : `${(ms / 1000).toLocaleString("en", { minimumFractionDigits: 2, maximumFractionDigits: 2 })} s`);

// Bytes as letters, with a dot for what is none.
const lettersOf = bytes => Array.from(bytes, byte => (byte > 31 && byte < 127 ? String.fromCharCode(byte) : "·")).join("");

// A name may be as long as its module: its first letters, where it is long.
const shortened = (name, most = 80) => (name.length > most ? `${name.slice(0, most)} …` : name);

// What is true of something, one after the other.
const joined = words => words.filter(Boolean).join(", ");

// What a memory is: its sizes in pages, and what more is said of it.
function memoryWords({ minimum, maximum, page, isWide, isShared }) {
  const bytes = Number(minimum) * page;
  return joined([
    count(minimum, page === 1 ? "byte" : "page"),
    maximum !== null && `at most ${spoken(maximum)}`,
    bytes > 0 && sizeWords(bytes),
    isWide && "addresses of 64 bits",
    isShared && "shared",
  ]);
}

// What a table is: its sizes, and what its cells hold.
function tableWords({ minimum, maximum, element, isWide }) {
  return joined([count(minimum, "cell"), maximum !== null && `at most ${spoken(maximum)}`, `of ${element}`, isWide && "indices of 64 bits"]);
}
