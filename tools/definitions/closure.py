"""The definitions that a contract rests on: names are followed from its clauses through the `use`
lines of specs/.

Of a law only the statement is followed: its body is shut to whoever cites it.
"""

import re

import sources

WORD = sources.WORD
NAMES = re.compile(rf"{WORD}(?:\.[A-Za-z_«][A-Za-z0-9_'\-»]*)*")
BINDERS = re.compile(rf"[({{]((?:{WORD}\s+)*{WORD})\s*:(?!:)")
TAKEN = re.compile(rf"λ\s+((?:{WORD}\s+)*{WORD})\.")
LET = re.compile(rf"\blet\s+({WORD})\s*(?:=|:)")
STEP = re.compile(rf"({WORD})\s*←")
CLAUSE = re.compile(rf"^{WORD}((?:\s+[^=:]*)?)\s=\s")
FIELD_HEAD = re.compile(rf"^pub\s+{WORD}\s*:(.*)$")
SET_FIELD = re.compile(rf"(?<=[{{;])\s*«?{WORD}»?\s*=(?!=)")
FIELD_LINE = re.compile(rf"^\s+{WORD}\s=\s")
# The format, the rules, and what a plan and a module leave: a reader begins with these, where they
# are reached.
READ_FIRST = ["Spells", "Keeps", "AgreesInAll"]
# Records of what follows from the rest: a reader may pass over them, and what they alone cite.
FOLLOWS = frozenset(["AlsoHolds"])
COMMENT = re.compile(r"(^|\s)--(\s.*)?$")


class Contract:
    """The contract of a function of a .rt file, as text, with what the file's `ghost use` lines bring."""

    def __init__(self, path, function):
        self.path, self.function = path, function
        lines = path.read_text().split("\n")
        self.imports, self.definitions, self.constructors = {}, {}, {}
        for line in lines:
            found = re.match(r"\s*(?:pub )?ghost use (.*);\s*$", line)
            if found:
                self.imports.update(sources.read_use("use " + found.group(1)))
        starts = [number for number, line in enumerate(lines) if re.search(rf"\bfn {re.escape(function)}\b", line)]
        if not starts:
            raise LookupError(f"{path} has no function {function}")
        self.first = starts[0]
        self.end = next((number for number in range(self.first, len(lines)) if is_end(lines, number)), len(lines))
        while self.first and lines[self.first - 1].strip().startswith("///"):
            self.first -= 1
        self.lines = lines[self.first : self.end]

    def text(self):
        return "\n".join(re.sub(r"//.*", "", line) for line in self.lines)


def is_end(lines, number):
    """Whether a contract ends before a line: at the body, which begins on a line of its own, or in
    the line of the head."""
    text = lines[number].strip()
    if text in ("{", "{}"):
        return True
    return not text.startswith(("requires", "ensures", "//")) and text.endswith((" {", "{}", ";")) and "→" not in text


def statement_of(definition, with_proofs=False):
    """The text of a definition, or of the statement of a law, without comments and names of fields, and the names that it binds."""
    lines = [COMMENT.sub("", line) for line in (definition.lines() if with_proofs else definition.told())] + definition.blocks()
    text, bound = "\n".join(lines), set()
    for pattern in (BINDERS, TAKEN):
        bound.update(name for found in pattern.findall(text) for name in found.split())
    for pattern in (LET, STEP):
        bound.update(pattern.findall(text))
    kept = []
    for line in lines:
        field, clause = FIELD_HEAD.match(line.strip()), CLAUSE.match(line.strip())
        if field:
            kept.append(field.group(1))
            continue
        if clause and not line.strip().startswith(("let ", "if ")):
            bound.update(name for name in re.findall(WORD, clause.group(1)) if name[0].islower() and name not in definition.file.constructors)
        plain = FIELD_LINE.sub(" ", line) if not line.strip().startswith(("let", definition.name + " ")) else line
        kept.append(SET_FIELD.sub(" ", plain))
    return "\n".join(kept), bound - {definition.name}


def cited(file, text, bound=frozenset()):
    """The module and the name of each item that a text names, by what a file imports and defines."""
    found = set()
    for name in NAMES.findall(text):
        head, *rest = name.split(".")
        if head in bound:
            continue
        brought = file.imports.get(head)
        if brought and brought.item:
            found.add((brought.module, brought.item))
        elif brought and rest:
            found.add((brought.module, rest[0]))
        elif head in file.definitions or head in file.constructors:
            found.add((file.module, head))
    signs = set(text.split())
    for name in [*file.imports, *file.definitions]:
        pieces = name.replace("◌", " ").split() if "◌" in name else []
        if pieces and signs.issuperset(pieces):
            found.add((file.imports[name].module, file.imports[name].item) if name in file.imports else (file.module, name))
    return found


class Closure:
    """What is reached: definitions in the order of reading, each behind those that it cites; the
    Rust types; the words of the kit.

    What the proofs of laws cite is not reached, unless it is asked for.
    """

    def __init__(self, all_sources, roots, passed_over=frozenset(), with_proofs=False):
        self.sources, self.passed_over, self.with_proofs = all_sources, passed_over, with_proofs
        self.definitions, self.rust_types, self.words, self.unknown = {}, set(), set(), set()
        for root in sorted(roots):
            self.reach(root)
        self.read_first()

    def read_first(self):
        """Puts what is read first before all else, with what it cites; it is reached anyway."""
        first = [key for name in READ_FIRST for key in self.definitions if key[1] == name]
        begun, self.definitions = self.definitions, {}
        for key in [*first, *begun]:
            self.reach(key)

    def reach(self, item):
        module, name = item
        if ".specs.declared" in module:
            self.rust_types.add(re.sub(r"\.TheVariants$", "", module))
            return
        file = self.sources.files.get(module)
        if file is None:
            (self.words if not module.startswith("Rattle.") or self.is_of_the_kit(module) else self.unknown).add(item)
            return
        definition = file.named(name)
        if definition is None:
            self.unknown.add(item)
            return
        key = (module, definition.name)
        if key in self.definitions:
            return
        self.definitions[key] = None
        for other in [] if definition.name in self.passed_over else sorted(cited(file, *statement_of(definition, self.with_proofs))):
            self.reach(other)
        # Behind what it cites.
        del self.definitions[key]
        self.definitions[key] = definition

    def is_of_the_kit(self, module):
        return not (self.sources.top / "crates" / module.split(".")[1]).is_dir()

    def files(self):
        """Each file with the definitions that are reached in it, behind the files that it cites."""
        inside, order = {}, {}
        for definition in self.definitions.values():
            inside.setdefault(definition.file.module, []).append(definition)

        def place(module):
            if module in order or module not in inside:
                return
            order[module] = None
            for definition in inside[module]:
                for other, _ in sorted(cited(definition.file, *statement_of(definition))):
                    place(other)
            del order[module]
            order[module] = inside[module]

        for module in inside:
            place(module)
        return {self.sources.files[module]: definitions for module, definitions in order.items()}

    def lines(self):
        return sum(len(definition.code_lines()) for definition in self.definitions.values())
