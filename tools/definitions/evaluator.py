"""Evaluates definitions: their text is read, made into functions of Python, and run.

A number is an int, a Bool a bool, a list a list, a tuple a tuple, a text a str. A statement is True
or False: an equation compares values, a record of statements holds where each of its fields holds.
What speaks of all values of a type, or of some value, is not evaluated: it raises `NotEvaluated`,
and a few such definitions have a function of Python in their place (words.py, parts.py).
"""

import sources
import syntax

STANDARD = {"true", "false", "zero", "suc", "Some", "None", "Ok", "Err", "pos", "negsuc", "tt"}


class NotEvaluated(Exception):
    """The text asks for what cannot be computed, or for a word that is not known."""


class Made:
    """A value that a constructor makes."""

    __slots__ = ("name", "parts")

    def __init__(self, name, parts=()):
        self.name, self.parts = name, tuple(parts)

    def __eq__(self, other):
        return isinstance(other, Made) and self.name == other.name and self.parts == other.parts

    def __hash__(self):
        return hash((self.name, self.parts))

    def __repr__(self):
        return f"({self.name} {' '.join(map(repr, self.parts))})" if self.parts else self.name

    def __call__(self, *more):
        return Made(self.name, self.parts + more)


class Fields(dict):
    """A record of values."""


class Function:
    """A function that waits for arguments."""

    __slots__ = ("call", "arity", "given")

    def __init__(self, call, arity, given=()):
        self.call, self.arity, self.given = call, arity, given

    def __call__(self, *more):
        given = self.given + more
        if len(given) < self.arity:
            return Function(self.call, self.arity, given)
        made = self.call(*given[: self.arity])
        return made(*given[self.arity :]) if len(given) > self.arity else made


NONE = Made("None")


def some(value):
    return Made("Some", (value,))


def field_of(value, name):
    if isinstance(value, Fields):
        return value[name]
    if isinstance(value, tuple):
        return value[int(name)]
    return getattr(value, name)


OPERATIONS = {
    "+": lambda a, b: a + b, "-": lambda a, b: max(0, a - b), "*": lambda a, b: a * b, "^": lambda a, b: a**b,
    "/": lambda a, b: a // b if b else 0, "%": lambda a, b: a % b if b else a, "+ℤ": lambda a, b: a + b, "-ℤ": lambda a, b: a - b,
    "∷": lambda a, b: [a, *b], "++": lambda a, b: a + b, "==": lambda a, b: a == b, "≡": lambda a, b: a == b, "↔": lambda a, b: a == b,
    "≢": lambda a, b: a != b, "<": lambda a, b: a < b, "≤": lambda a, b: a <= b, "<ℤ": lambda a, b: a < b, "≤ℤ": lambda a, b: a <= b,
}  # fmt: skip


class Evaluator:
    """The definitions of a repository, each evaluated when it is first asked for.

    `words` has the words of std by their names, and `natives` what stands in place of a definition,
    by crate and name."""

    def __init__(self, all_sources, words, natives):
        self.sources, self.words, self.natives = all_sources, words, natives
        self.known = {}

    def find(self, crate, name):
        """The value of the definition that a crate has once under a name."""
        return self.value_of(self.sources.find(crate, name))

    def value_of(self, definition):
        key = (definition.file.module, definition.name)
        if key not in self.known:
            self.known[key] = self.make(definition)
        return self.known[key]

    def make(self, definition):
        name = (definition.file.module.split(".")[1], definition.name)
        if name in self.natives:
            return self.natives[name](self)
        if definition.kind == "data":
            return NotImplemented
        parameters = definition.parameters()
        made, arity = self.make_record(definition, parameters) if definition.kind == "record" else self.make_clauses(definition, parameters)
        return Function(made, arity) if arity else made()

    def make_clauses(self, definition, parameters):
        clauses = syntax.clauses_of(definition)
        arity = max(len(patterns) for patterns, _ in clauses)
        made = []
        for patterns, body in clauses:
            scope, tests = set(parameters), [self.pattern(pattern, definition.file) for pattern in patterns]
            scope.update(name for _, names in tests for name in names)
            made.append(([test for test, _ in tests], self.expression(body, frozenset(scope), definition)))

        def call(*given):
            rest = given[len(parameters) :]
            for tests, body in made:
                values = dict(zip(parameters, given))
                if all(test(value, values) for test, value in zip(tests, rest)):
                    result = body(values)
                    return result(*rest[len(tests) :]) if len(rest) > len(tests) else result
            raise NotEvaluated(f"no clause of {definition.name} for {rest!r}"[:300])

        return call, len(parameters) + arity

    def make_record(self, definition, parameters):
        own, fields = syntax.fields_of(definition)
        names = parameters + own
        made = [self.expression(syntax.expression_of(lines), frozenset(names), definition) for _, lines in fields]
        return lambda *given: all(field(dict(zip(names, given))) is True for field in made), len(names)

    # ---- patterns: each a test that puts what it names among the values, and those names

    def pattern(self, pattern, file):
        kind = pattern[0]
        if kind == "any":
            return lambda value, values: True, []
        if kind == "empty":
            return lambda value, values: len(value) == 0, []
        if kind == "name":
            return self.name_pattern(pattern[1], file)
        if kind == "more":
            first, names = self.pattern(pattern[1], file)
            rest, more = self.pattern(pattern[2], file)
            return lambda value, values: len(value) > 0 and first(value[0], values) and rest(value[1:], values), names + more
        tests = [self.pattern(part, file) for part in pattern[-1]]
        names = [name for _, more in tests for name in more]
        tests = [test for test, _ in tests]
        if kind == "tuple":
            return lambda value, values: all(test(part, values) for test, part in zip(tests, value)), names
        return self.made_pattern(pattern[1].split(".")[-1], tests, self.constructor(pattern[1], file)), names

    def name_pattern(self, name, file):
        made = self.constructor(name, file)
        if made is None:
            return self.bind(name)
        if made in ("true", "false", "zero"):
            wanted = {"true": True, "false": False, "zero": 0}[made]
            return lambda value, values: value == wanted, []
        return lambda value, values: value.name == made and not value.parts, []

    def binder(self, pattern):
        """What a function takes: a name, whatever it is elsewhere, or names in a tuple."""
        if pattern[0] == "tuple":
            return self.pattern(pattern, NO_NAMES)
        return self.bind(pattern[1])

    def bind(self, name):
        def bind(value, values):
            values[name] = value
            return True

        return bind, [name]

    def made_pattern(self, name, tests, made):
        if name == "suc":
            return lambda value, values: value > 0 and tests[0](value - 1, values)
        if name == "pos":
            return lambda value, values: value >= 0 and tests[0](value, values)
        if name == "negsuc":
            return lambda value, values: value < 0 and tests[0](-value - 1, values)
        if made is None:
            raise NotEvaluated(f"{name} is no constructor that is known")
        return lambda value, values: (
            value.name == made and len(value.parts) == len(tests) and all(test(part, values) for test, part in zip(tests, value.parts))
        )

    def constructor(self, name, file):
        """The constructor that a name is in a file, or None."""
        head, *rest = name.split(".")
        brought = file.imports.get(head)
        if brought is None:
            return name if head in file.constructors or head in STANDARD else None
        item = rest[0] if rest else brought.item
        if brought.module.endswith("TheVariants") or item in STANDARD:
            return item
        other = self.sources.files.get(brought.module)
        return item if other and item in other.constructors else None

    # ---- expressions: each a function from the values of the names in scope

    def expression(self, expression, scope, owner):
        kind, *parts = expression
        return getattr(self, f"{kind}_expression")(*parts, scope, owner)

    def value_expression(self, value, scope, owner):
        return lambda values: value

    def list_expression(self, scope, owner):
        return lambda values: []

    def quantified_expression(self, text, scope, owner):
        def fail(values):
            raise NotEvaluated(f"{owner.name}: {text[:80]}")

        return fail

    def name_expression(self, name, scope, owner):
        head, *fields = name.split(".")
        if head in scope:
            if not fields:
                return lambda values: values[head]

            def read(values):
                value = values[head]
                for field in fields:
                    value = field_of(value, field.strip("«»"))
                return value

            return read
        return self.outer_name(name, owner)

    def outer_name(self, name, owner):
        """A name of a definition, looked up when it is first needed."""
        found = []

        def read(values):
            if not found:
                found.append(self.look_up(name, owner))
            value, shared, fields = found[0]
            if shared:
                value = value(*(values[parameter] for parameter in shared))
            for field in fields:
                value = field_of(value, field)
            return value

        return read

    def look_up(self, name, owner):
        """A value, the parameters of blocks that it shares with the owner, and the fields that are
        read of it."""
        head, *rest = name.split(".")
        file = owner.file
        brought = file.imports.get(head)
        if brought is None:
            if file.named(head):
                return self.of_file(file, head, rest, owner)
            return self.word(name), [], []
        item, fields = (brought.item, rest) if brought.item else (rest[0], rest[1:])
        if brought.module.endswith("TheVariants"):
            return Made(item), [], fields
        other = self.sources.files.get(brought.module)
        return self.of_file(other, item, fields, owner) if other else (self.word(item), [], fields)

    def of_file(self, file, name, fields, owner):
        if name in file.constructors:
            return Made(name), [], fields
        definition = file.definitions.get(name)
        if definition is None:
            raise NotEvaluated(f"{file.module} has no {name}")
        common = [head for head in definition.blocks() if file is owner.file and head in owner.blocks()]
        shared = [name for head in common for names in sources.PARAMETERS.findall(head) for name in names.split()]
        return self.value_of(definition), shared, fields

    def word(self, name):
        if name not in self.words:
            raise NotEvaluated(f"the word {name} of std is not known")
        return self.words[name]

    def apply_expression(self, function, arguments, scope, owner):
        called = self.expression(function, scope, owner)
        given = [self.expression(argument, scope, owner) for argument in arguments]
        return lambda values: called(values)(*[argument(values) for argument in given])

    def operator_expression(self, sign, left, right, scope, owner):
        one, other = self.expression(left, scope, owner), self.expression(right, scope, owner)
        if sign == "&&":
            return lambda values: one(values) is True and other(values) is True
        if sign in ("||", "⊎"):
            return lambda values: one(values) is True or other(values) is True
        if sign == "→":
            return lambda values: one(values) is not True or other(values) is True
        if sign == ">>=":
            return lambda values: self.words[">>="](one(values), other(values))
        operation = OPERATIONS[sign]
        return lambda values: operation(one(values), other(values))

    def all_expression(self, parts, scope, owner):
        made = [self.expression(part, scope, owner) for part in parts]
        return lambda values: all(part(values) is True for part in made)

    def not_expression(self, part, scope, owner):
        made = self.expression(part, scope, owner)
        return lambda values: made(values) is not True

    def tuple_expression(self, parts, scope, owner):
        made = [self.expression(part, scope, owner) for part in parts]
        return lambda values: tuple(part(values) for part in made)

    def if_expression(self, test, then, otherwise, scope, owner):
        made, one, other = (self.expression(part, scope, owner) for part in (test, then, otherwise))
        return lambda values: one(values) if made(values) is True else other(values)

    def let_expression(self, name, value, body, scope, owner):
        made, inner = self.expression(value, scope, owner), self.expression(body, scope | {name}, owner)
        return lambda values: inner({**values, name: made(values)})

    def function_expression(self, patterns, body, scope, owner):
        tests = [self.binder(pattern) for pattern in patterns]
        inner = self.expression(body, scope | {name for _, names in tests for name in names}, owner)

        def make(values):
            def call(*given):
                more = dict(values)
                for (test, _), value in zip(tests, given):
                    test(value, more)
                return inner(more)

            return Function(call, len(tests))

        return make

    def record_expression(self, base, fields, scope, owner):
        begun = self.expression(base, scope, owner) if base else lambda values: {}
        made = [(name, self.expression(value, scope, owner)) for name, value in fields]
        return lambda values: Fields({**begun(values), **{name: value(values) for name, value in made}})

    def field_expression(self, part, name, scope, owner):
        made = self.expression(part, scope, owner)
        return lambda values: field_of(made(values), name)


class NoNames:
    """In place of a file, for the tuples that a function takes, which name no constructor."""

    imports, constructors = {}, {}


NO_NAMES = NoNames()
