"""The text of crates/*/specs: its files, what each of them imports, and the definitions that stand in it."""

import re
from pathlib import Path

WORD = r"[A-Za-z_][A-Za-z0-9_'\-]*"
KEYWORDS = r"(?:abbrev pub|abbrev|unfoldable pub|unfoldable|pub)"
TYPE_HEAD = re.compile(rf"^(?:{KEYWORDS}\s+)?(record|data)\s+(?:pub\s+)?({WORD})")
NAMED_HEAD = re.compile(rf"^{KEYWORDS}\s+(◌\S*◌|{WORD}|«[^»]+»)\s*(?:\{{[^}}]*\}}\s*)?:")
PRIVATE_HEAD = re.compile(rf"^({WORD})\s*:\s")
CONSTRUCTOR = re.compile(rf"^\s+(◌\S*◌|{WORD})\s*:")
USE_ITEMS = re.compile(r"(?:pub )?use ([A-Za-z0-9_.«»]+)\.\{(.*)\}\s*$")
USE_MODULE = re.compile(r"(?:pub )?use ([A-Za-z0-9_.«»]+)(?: as (\S+))?\s*$")
PARAMETERS = re.compile(r"\(([^():]*):")


class Import:
    """What a `use` line brings under a name: an item of a module, or a module itself (then `item`
    is None)."""

    def __init__(self, module, item=None):
        self.module, self.item = module, item


class Definition:
    """A definition: its file, its name, the lines from `start` to before `end`, and its kind."""

    def __init__(self, file, name, start, end, kind):
        self.file, self.name, self.start, self.end, self.kind = file, name, start, end, kind

    def lines(self):
        return self.file.lines[self.start : self.end]

    def is_law(self):
        """Whether its body is shut to whoever cites it, as it is unless `abbrev` or `unfoldable` opens it."""
        return self.kind in ("function", "private") and not self.file.lines[self.start].strip().startswith(("abbrev", "unfoldable"))

    def told(self):
        """The lines that say what it is: of a law its statement, since no more of it is known."""
        lines = self.lines()
        body = re.compile(rf"\s*(unfolding\b|{re.escape(self.name)}(\s|$))")
        return lines[: next((number for number, line in enumerate(lines) if number and self.is_law() and body.match(line)), len(lines))]

    def code_lines(self):
        """Its lines without comments and blank ones; of a law those of its statement."""
        return [line for line in self.told() if is_code(line)]

    def blocks(self):
        """The heads of the blocks `module _ ( .. ) where` in which it stands, the outermost first."""
        return [head for start, end, head in self.file.blocks if start < self.start < end]

    def parameters(self):
        """The names that these blocks give it before its own arguments."""
        return [name for head in self.blocks() for names in PARAMETERS.findall(head) for name in names.split()]

    def comment(self):
        """The lines of comment right above it."""
        first = self.start
        while first > 0 and self.file.lines[first - 1].strip().startswith("--") and not is_divider(self.file.lines[first - 1]):
            first -= 1
        return self.file.lines[first : self.start]


def is_code(line):
    return bool(line.strip()) and not line.strip().startswith("--")


def is_divider(line):
    return line.strip().startswith("-- ----")


def indent_of(line):
    return len(line) - len(line.lstrip())


def read_use(line):
    """The names that a `use` line brings, each with its import."""
    line = line.strip()
    found = USE_ITEMS.match(line)
    if found:
        module, brought = found.group(1), {}
        for item in filter(None, map(str.strip, found.group(2).split(","))):
            name, _, other = item.partition(" as ")
            brought[(other or name).strip()] = Import(module, name.strip())
        return brought
    found = USE_MODULE.match(line)
    return {found.group(2) or found.group(1).split(".")[-1]: Import(found.group(1))} if found else {}


class SpecFile:
    """A file of specs/."""

    def __init__(self, path, module):
        self.path, self.module = path, module
        self.lines = path.read_text().split("\n")
        self.imports, self.definitions, self.constructors, self.blocks = {}, {}, {}, []
        self.read_heads()

    def read_heads(self):
        heads, openers = [], []
        for number, line in enumerate(self.lines):
            if not is_code(line):
                continue
            text, indent = line.strip(), indent_of(line)
            if text.startswith(("use ", "pub use ")):
                self.imports.update(read_use(text))
                heads.append((number, indent, None, "use"))
            elif text.startswith(("module _", "mutual")):
                heads.append((number, indent, None, "block"))
                openers.append((number, indent, text))
            elif text.startswith(("infix", "pub mod ", "mod ")):
                heads.append((number, indent, None, "line"))
            elif indent == 0 or (openers and indent == openers[-1][1] + 2):
                name, kind = head_of(text, indent, heads)
                if name:
                    heads.append((number, indent, name, kind))
        self.place_heads(heads)
        self.blocks = [(number, end_of(heads, number, indent, len(self.lines)), text) for number, indent, text in openers]

    def place_heads(self, heads):
        for number, indent, name, kind in heads:
            if name is None:
                continue
            end = end_of(heads, number, indent, len(self.lines))
            while end > number + 1 and not is_code(self.lines[end - 1]):
                end -= 1
            self.definitions[name] = Definition(self, name, number, end, kind)
            if kind == "data":
                made = (CONSTRUCTOR.match(line) for line in self.lines[number + 1 : end])
                self.constructors.update((found.group(1), name) for found in made if found)

    def named(self, name):
        """The definition of a name, which may be that of a constructor; or None."""
        return self.definitions.get(self.constructors.get(name, name))


def head_of(text, indent, heads):
    """The name and the kind of the definition that a line begins, or None twice. A field of a
    record begins none."""
    found = TYPE_HEAD.match(text)
    if found:
        return found.group(2), found.group(1)
    found = NAMED_HEAD.match(text)
    if found:
        above = next((head for head in reversed(heads) if head[1] < indent), None)
        return (None, None) if above and above[3] in ("record", "data") else (found.group(1), "function")
    found = PRIVATE_HEAD.match(text) if indent == 0 else None
    return (found.group(1), "private") if found else (None, None)


def end_of(heads, number, indent, last):
    return next((other for other, other_indent, _, _ in heads if other > number and other_indent <= indent), last)


class Sources:
    """All files of crates/*/specs under a folder, by the names of their modules."""

    def __init__(self, top):
        self.top = Path(top)
        self.files = {}
        for path in sorted((self.top / "crates").glob("*/specs/**/*.antt")):
            crate, _, *inner = path.relative_to(self.top / "crates").with_suffix("").parts
            module = ".".join(["Rattle", crate, "specs", *inner])
            self.files[module] = SpecFile(path, module)

    def find(self, crate, name):
        """The definition of a name that a crate has once, whichever file it stands in."""
        found = [file.named(name) for module, file in self.files.items() if module.startswith(f"Rattle.{crate}.specs.") and file.named(name)]
        if len(found) != 1:
            raise LookupError(f"{crate} defines {name} {len(found)} times in its specs")
        return found[0]
