"""Reads the text of a definition: words, expressions and patterns.

An expression is a tuple, whose first item says what it is: ("value", v), ("name", text), ("apply",
function, arguments), ("operator", sign, left, right), ("all", parts), ("not", e), ("function",
patterns, body), ("let", name, e, body), ("if", test, then, otherwise), ("list",), ("tuple", parts),
("record", base, fields), ("field", e, name), ("quantified", text). A pattern likewise: ("any",),
("name", text), ("empty",), ("more", first, rest), ("tuple", parts), ("made", name, parts).
"""

import re

WORDS = re.compile(r'\s+|(?P<text>"(?:[^"\\]|\\.)*")|(?P<empty>\[\])|(?P<mark>[(){}\[\],;])|(?P<word>[^\s(){}\[\],;"]+)')
NUMBER = re.compile(r"^0x[0-9A-Fa-f_]+$|^\d[\d_]*$")
FIELD = re.compile(r"^(?:pub )?([A-Za-z_][\w'\-]*|«\w+»)\s*:\s*(.*)$")
# How tightly an operator binds, and to which side it groups.
OPERATORS = {
    "→": (1, "right"), "↔": (2, "none"), "⊎": (3, "right"), "×": (4, "none"),
    "≡": (6, "none"), "≢": (6, "none"), "<": (6, "none"), "≤": (6, "none"), ">>=": (7, "left"), "||": (8, "left"), "&&": (9, "left"),
    "==": (10, "none"), "++": (11, "left"), "+": (12, "left"), "-": (12, "left"), "+ℤ": (12, "left"), "-ℤ": (12, "left"),
    "*": (13, "left"), "/": (13, "left"), "%": (13, "left"), "^": (14, "left"), "∷": (15, "right"), "≤ℤ": (6, "none"), "<ℤ": (6, "none"),
}  # fmt: skip
ESCAPES = {"n": "\n", "t": "\t"}
STOPS = {"=", "then", "else", "in", "where", ":", "←", "|", "↦", "¬", ".", "λ", "let", "if", "do"}


class Word:
    """A word of the text: its kind, its line and column, and whether it stands right behind the
    word before it."""

    __slots__ = ("kind", "text", "joined", "line", "column")

    def __init__(self, kind, text, joined, line, column):
        self.kind, self.text, self.joined, self.line, self.column = kind, text, joined, line, column


def words_of(lines):
    """The words of some lines, without comments."""
    words = []
    for number, line in enumerate(lines):
        end = -1
        for found in WORDS.finditer(re.sub(r"(^|\s)--(\s.*)?$", "", line)):
            if found.lastgroup:
                words.append(Word(found.lastgroup, found.group(), found.start() == end, number, found.start()))
                end = found.end()
    return words


class Reader:
    """Reads expressions from a list of words."""

    def __init__(self, words):
        self.words, self.at = words, 0

    def here(self, ahead=0):
        place = self.at + ahead
        return self.words[place].text if place < len(self.words) else None

    def next(self):
        self.at += 1
        return self.words[self.at - 1]

    def take(self, text):
        if self.here() != text:
            raise SyntaxError(f"{text} is wanted, and {self.here()} stands: {' '.join(word.text for word in self.words[max(0, self.at - 8) : self.at + 6])}")
        self.at += 1

    def skip_brackets(self):
        """Passes over what stands in brackets, of which the first is next."""
        depth = 0
        while True:
            text = self.next().text
            depth += (text in "([{") - (text in ")]}")
            if depth == 0:
                return

    def skip_to(self, text):
        while self.here() != text:
            if self.here() in ("(", "[", "{"):
                self.skip_brackets()
            else:
                self.at += 1

    def expression(self, least=0):
        left = self.prefix()
        while self.here() in OPERATORS and self.words[self.at].kind == "word":
            binds, side = OPERATORS[self.here()]
            if binds < least:
                return left
            sign = self.next().text
            if sign == "×":
                parts = [left, self.expression(binds + 1)]
                while self.here() == "×":
                    self.next()
                    parts.append(self.expression(binds + 1))
                left = ("all", parts)
            else:
                left = ("operator", sign, left, self.expression(binds if side == "right" else binds + 1))
        return left

    def prefix(self):
        text = self.here()
        if text == "¬":
            self.next()
            return ("not", self.expression(6))
        if text == "λ":
            return self.function()
        if text == "let":
            return self.let()
        if text == "if":
            self.next()
            test = self.expression()
            self.take("then")
            then = self.expression()
            self.take("else")
            return ("if", test, then, self.expression())
        return self.steps() if text == "do" else self.application()

    def let(self):
        self.take("let")
        name = self.next().text
        if self.here() == ":":
            self.skip_to("=")
        self.take("=")
        value = self.expression()
        self.take("in")
        return ("let", name, value, self.expression())

    def function(self):
        """`λ x y.`, `λ (x y : T).` or `λ (x, y).`, and a body."""
        self.take("λ")
        patterns = []
        while True:
            if self.here() == "(":
                patterns += self.bracketed_binders()
                if self.here() == "." and self.words[self.at].joined:
                    self.next()
                    break
                continue
            name = self.next().text
            patterns.append(("name", name.rstrip(".")))
            if name.endswith("."):
                break
        return ("function", patterns, self.expression())

    def bracketed_binders(self):
        start, names = self.at, []
        self.take("(")
        while self.here() not in (":", ")"):
            names.append(self.next().text)
        if self.here() == ":":
            self.at = start
            self.skip_brackets()
            return [("name", name) for name in names]
        self.take(")")
        return [("tuple", [("name", name) for name in names if name != ","])]

    def steps(self):
        """`do` and its steps, each on a line of its own at one column: the same as `>>=`."""
        head = self.next()
        column, steps = self.words[self.at].column, []
        while self.at < len(self.words) and self.words[self.at].column == column and self.words[self.at].line > head.line:
            end = self.at + 1
            while end < len(self.words) and self.words[end].column > column:
                end += 1
            inner = Reader(self.words[self.at : end])
            self.at = end
            name = None
            if inner.here(1) == "←":
                name = inner.next().text
                inner.next()
            steps.append((name, inner.expression()))
        joined = steps[-1][1]
        for name, step in reversed(steps[:-1]):
            joined = ("operator", ">>=", step, ("function", [("name", name or "_")], joined))
        return joined

    def begins_atom(self):
        if self.at >= len(self.words):
            return False
        word = self.words[self.at]
        if word.kind != "word":
            return word.kind in ("text", "empty") or word.text in "({"
        return word.text not in OPERATORS and word.text not in STOPS

    def application(self):
        function, arguments = self.atom(), []
        while self.begins_atom():
            if self.here() == "{":
                self.skip_brackets()
            else:
                arguments.append(self.atom())
        return ("apply", function, arguments) if arguments else function

    def atom(self):
        word = self.next()
        if word.kind == "text":
            made = ("value", re.sub(r"\\(.)", lambda found: ESCAPES.get(found.group(1), found.group(1)), word.text[1:-1]))
        elif word.kind == "empty":
            made = ("list",)
        elif word.text == "(":
            made = self.bracketed()
        elif word.text == "record":
            made = self.record()
        elif word.kind == "word":
            made = ("value", int(word.text.replace("_", ""), 0)) if NUMBER.match(word.text) else ("name", word.text.strip("«»"))
        else:
            raise SyntaxError(f"{word.text} where an expression begins")
        return self.with_fields(made)

    def with_fields(self, made):
        while self.at < len(self.words) and self.words[self.at].joined and re.match(r"\.\w|\.«", self.here()):
            for name in self.next().text[1:].split("."):
                made = ("field", made, name.strip("«»"))
        return made

    def bracketed(self):
        """What follows a bracket: a statement on all or some values, which is not evaluated; or
        expressions."""
        ahead = 0
        while self.here(ahead) not in (None, ":", ",", ")") and self.words[self.at + ahead].kind == "word" and self.here(ahead) not in OPERATORS:
            ahead += 1
        if ahead and self.here(ahead) == ":":
            self.at -= 1
            start = self.at
            self.skip_brackets()
            while self.here() not in (None, ")", "}", ";", ","):
                if self.here() in ("(", "[", "{"):
                    self.skip_brackets()
                else:
                    self.at += 1
            return ("quantified", " ".join(word.text for word in self.words[start : self.at]))
        parts = [self.expression()]
        while self.here() == ",":
            self.next()
            parts.append(self.expression())
        self.take(")")
        return parts[0] if len(parts) == 1 else ("tuple", parts)

    def record(self):
        """A record of values, or a record type, whose fields are statements."""
        base = None if self.here() == "{" else self.atom()
        self.take("{")
        fields, is_type = [], False
        while self.here() != "}":
            name = self.next().text.strip("«»")
            is_type = self.here() == ":"
            self.take(":" if is_type else "=")
            fields.append((name, self.expression()))
            if self.here() == ";":
                self.next()
        self.take("}")
        return ("all", [part for _, part in fields]) if is_type else ("record", base, fields)

    def pattern(self):
        head, parts = self.pattern_atom(), []
        while self.here() not in (None, ")", ",", "∷", "="):
            parts.append(self.pattern_atom())
        if parts:
            head = ("made", head[1], parts)
        if self.here() == "∷":
            self.next()
            return ("more", head, self.pattern())
        return head

    def pattern_atom(self):
        word = self.next()
        if word.kind == "empty":
            return ("empty",)
        if word.text == "(":
            parts = [self.pattern()]
            while self.here() == ",":
                self.next()
                parts.append(self.pattern())
            self.take(")")
            return parts[0] if len(parts) == 1 else ("tuple", parts)
        return ("any",) if word.text == "_" else ("name", word.text)

    def patterns(self):
        """The patterns of a clause, up to its `=`, which is passed. What stands in braces is left out."""
        found = []
        while self.here() != "=":
            if self.here() == "{":
                self.skip_brackets()
            else:
                found.append(self.pattern_atom())
        self.take("=")
        return found


def expression_of(lines):
    """The expression that is all of some lines."""
    return whole(Reader(words_of(lines)))


def whole(reader):
    """The expression that is all that is left, but for a `where`."""
    made = reader.expression()
    if reader.here() not in (None, "where"):
        raise SyntaxError(f"{reader.here()} after an expression")
    return made


def clauses_of(definition):
    """The clauses of a function, each a list of patterns and an expression."""
    head, *lines = definition.lines()
    indent, clauses = len(head) - len(head.lstrip()), []
    for line in lines:
        text = line.strip()
        if len(line) - len(line.lstrip()) == indent and text.split(" ")[0] == definition.name:
            clauses.append([line])
        elif text.startswith("unfolding"):
            clauses.append(None)
        elif clauses and clauses[-1] is not None:
            clauses[-1].append(line)
    made = []
    for lines in filter(None, clauses):
        reader = Reader(words_of(lines)[1:])
        patterns = reader.patterns()
        made.append((patterns, whole(reader)))
    return made


def fields_of(definition):
    """The parameters of a record, and its fields, each a name and the lines of what it states."""
    lines = definition.lines()
    split = next(number for number, line in enumerate(lines) if line.rstrip().endswith("where"))
    head = " ".join(line.strip() for line in lines[: split + 1])
    parameters = [name for names in re.findall(r"\(([^():]*):", head) for name in names.split()]
    fields, indent = [], None
    for line in lines[split + 1 :]:
        if not line.strip() or line.strip().startswith("--"):
            continue
        found, depth = FIELD.match(line.strip()), len(line) - len(line.lstrip())
        if found and (indent is None or depth <= indent):
            fields.append((found.group(1).strip("«»"), [found.group(2)]))
            indent = depth
        elif fields:
            fields[-1][1].append(line)
    return parameters, fields
