"""Writes docs/CLAUSES.md: each public function with named clauses, by crate, what it promises and
the names of its clauses."""

import re

import closure

PROMISES = "tools/promises.txt"
FUNCTION = re.compile(r"^(\s*)(pub )?(?:final )?(?:const )?(?:unsafe )?(?:extern \"C\" )?fn (\w+)")
BLOCK = re.compile(r"^(?:pub )?(?:impl|trait)\b")
OF_TYPE = re.compile(r"^(?:pub )?(?:impl(?:<.*?>)?|trait) (?:.* for )?&?(?:'\w+ )?(\w+)")
SECTION = re.compile(r"## (.*?): (.*)$")

HEAD = """\
# Clauses

`tools/audit --write` writes this page from the contracts in `crates/*/src` and from the sentences in `tools/promises.txt`. `tools/audit` fails where it differs.
A row is a public function, or a family of functions that share a promise. Its clauses are named as after `ensures`; `-` says that the one clause has no name.
A law is a function with an empty body, whose clauses are the theorem. Every function also returns, and does nothing undefined, where its `requires` holds.
"""


class Function:
    """A function of a crate: the type in whose block it is, its name, the names of its clauses, its
    comment's first sentence."""

    def __init__(self, of, name, is_public, clauses, says):
        self.of, self.name, self.is_public, self.clauses, self.says = of, name, is_public, clauses, says


def functions_of(top, crate):
    """The functions of a crate. Public are those of which lib.rt names the function, or the type in
    whose block it is."""
    exported = exported_names(top / "crates" / crate / "src" / "lib.rt")
    for path in sorted((top / "crates" / crate / "src").glob("**/*.rt")):
        lines, block = path.read_text().split("\n"), ""
        for number, line in enumerate(lines):
            block = line if BLOCK.match(line) else "" if line.startswith("}") else block
            found = FUNCTION.match(line)
            if found and bool(found[1]) == bool(block):
                of = OF_TYPE.match(block)
                of, is_open = of[1] if of else "", bool(found[2]) or "trait" in block or " for " in block
                yield Function(of, found[3], is_open and (of or found[3]) in exported, clauses_at(lines, number), comment_at(lines, number))


def exported_names(file):
    """The words of the `pub` lines of a lib.rt; a program has none."""
    text = file.read_text() if file.exists() else ""
    return {word for line in re.findall(r"^pub (?:use|mod)\b.*?;", text, re.M | re.S) for word in re.findall(r"\w+", line)}


def clauses_at(lines, number):
    end = next((at for at in range(number, len(lines)) if closure.is_end(lines, at)), len(lines) - 1)
    return re.findall(r"^\s*ensures (\w+) \{", "\n".join(lines[number : end + 1]), re.M)


def comment_at(lines, number):
    comment = []
    while number and lines[number - 1].strip().startswith(("///", "#[")):
        number -= 1
        if lines[number].strip().startswith("///"):
            comment.insert(0, lines[number].strip()[3:].strip())
    says = re.split(r"(?<=[a-z0-9`)])[.:] ", " ".join(comment))[0].rstrip(".").replace("|", "\\|")
    return says if says[1:2].isupper() else says[:1].lower() + says[1:]


class Row:
    def __init__(self, names, clauses, promise):
        self.names, self.clauses, self.promise = names, clauses, promise

    def line(self):
        cells = (", ".join(f"`{name}`" for name in self.names), self.promise, ", ".join(f"`{clause}`" for clause in self.clauses) or "-")
        return "| {} | {} | {} |".format(*cells).replace("|  |", "| |")


def promises_of(top):
    """The sections of the file of promises: title, crates, and rows as they are written there."""
    sections = []
    for line in (top / PROMISES).read_text().split("\n"):
        section = SECTION.match(line)
        if section:
            sections.append((section[1], re.findall(r"`(\w+)`", section[2]), []))
        elif line and not line.startswith("#"):
            names, clauses, promise = (cell.strip() for cell in line.split("|", 2))
            sections[-1][2].append(Row(listed(names), [] if clauses == "-" else listed(clauses), promise))
    return sections


def listed(words):
    return [word for word in map(str.strip, words.split(",")) if word]


class Section:
    """The rows of some crates: those of the file, and one for each other public function whose
    clauses have names."""

    def __init__(self, top, crates, rows):
        self.functions = [one for crate in crates for one in functions_of(top, crate)]
        self.crates, self.rows, self.used = crates, [], set()
        for first, *more in grouped(rows):
            self.add(first, more)
        self.add_others()

    def named(self, name):
        of, _, plain = name.rpartition("::")
        found = [one for one in self.functions if one.name == plain and of in ("", one.of)]
        found = [one for one in found if one.is_public] or found
        if not found:
            raise LookupError(f"there is no function {name} in {', '.join(self.crates)}")
        return found

    def add(self, first, more):
        family = [one for name in first.names for one in self.named(name)]
        self.used.update(map(id, family))
        every = list(dict.fromkeys(clause for one in family for clause in one.clauses))
        for row in (first, *more):
            gone = [clause for clause in row.clauses if clause not in every]
            if gone:
                raise LookupError(f"{', '.join(first.names)} has no clause {', '.join(gone)}")
        if not more:
            first.clauses = every
        elif not any(not row.clauses for row in more):
            shown = {clause for row in (first, *more) for clause in row.clauses}
            rest = [clause for clause in every if clause not in shown]
            more += [Row([], rest, "also")] if rest else []
        self.rows += [first, *more]

    def add_others(self):
        for one in self.functions:
            if one.is_public and one.clauses and id(one) not in self.used and not one.name.startswith("worked_"):
                self.rows.append(Row([f"{one.of}::{one.name}" if one.of else one.name], one.clauses, one.says))


def grouped(rows):
    """Each row that names functions, with those after it that name none."""
    groups = []
    for row in rows:
        if row.names:
            groups.append([row])
        else:
            groups[-1].append(row)
    return groups


def index_of(sections):
    """A list of links to the sections, with the crates of each."""
    for title, crates, _ in sections:
        yield f"- [{title}](#{title.lower().replace(' ', '-')}): " + ", ".join(f"`{crate}`" for crate in crates)


def page(top):
    """The whole text of docs/CLAUSES.md."""
    sections = promises_of(top)
    lines = [HEAD, *index_of(sections), ""]
    for title, crates, rows in sections:
        lines += [f"## {title}", "", "Crates: " + ", ".join(f"`{crate}`" for crate in crates) + ".", "", "| Function | Promise | Clauses |", "|---|---|---|"]
        lines += [row.line() for row in Section(top, crates, rows).rows] + [""]
    return "\n".join(lines)
