// What functions are called: by the name section, as the planner has it, or else by an import or
// export. And what a name means that a compiler of Rust or C++ made.

class Names {
  constructor(told) {
    this.told = told;
  }

  // The name of a function, and the readable one where it was made by a compiler.
  of(index) {
    const { told } = this, own = told.functionName(index);
    if (own !== null) return { name: shortened(own, MOST_SHOWN), readable: this.readable(own), from: "name section" };
    if (index < told.plan.entities.imported_functions) return { name: told.externals.importWords(0, index), readable: null, from: "import" };
    const words = told.externals.exportWords(0, index);
    return { name: words, readable: null, from: words === null ? null : "export" };
  }

  // The name where there is room for one alone; or null.
  short(index) {
    const { name, readable } = this.of(index);
    return readable ?? name;
  }

  readable(name) {
    const found = readableName(name);
    return found === null ? null : shortened(found, MOST_SHOWN);
  }
}

// A longer name is shown as it is, and of a readable one so many letters.
const LONGEST = 4000;
const MOST_SHOWN = 240;

// What a name is in the source, or null where no compiler that is known here made it.
function readableName(name) {
  if (name.length > LONGEST) return null;
  return rustName(name) ?? cppName(name);
}
