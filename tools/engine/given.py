"""Modules that are given: read so far as a replay needs it, and spelled anew with all they have
exported and no start function."""

from spelling import HEADER, name, section, unsigned, vector

SIMPLE = {0x7F: "i32", 0x7E: "i64"}
TABLES = {0x70, 0x6F}
MOST_PAGES, MOST_CELLS = 64, 100000
# How many bytes follow an operator that has no number behind it.
FIXED = {0x43: 4, 0x44: 8, 0x6A: 0, 0x6B: 0, 0x6C: 0, 0x7C: 0, 0x7D: 0, 0x7E: 0, 0xD0: 1}
END, GLOBAL_GET, REF_FUNC, REF_NULL, VECTOR = 0x0B, 0x23, 0xD2, 0xD0, 0xFD
IMPORTED = [7, 1099]


class LeftOut(Exception):
    """A module has what this reader or this comparison does not know."""


class Reader:
    def __init__(self, data, at=0):
        self.data, self.at = data, at

    def byte(self):
        self.at += 1
        return self.data[self.at - 1]

    def take(self, count):
        self.at += count
        return self.data[self.at - count : self.at]

    def number(self):
        value, shift = 0, 0
        while True:
            byte = self.byte()
            value |= (byte & 127) << shift
            shift += 7
            if byte < 128:
                return value

    def text(self):
        return self.take(self.number()).decode()

    def limits(self, plain):
        """The minimum, and the maximum or None."""
        flags = self.byte()
        if flags not in plain:
            raise LeftOut("limits of another kind")
        return self.number(), self.number() if flags & 1 else None

    def table(self):
        if self.byte() not in TABLES:
            raise LeftOut("a table of another kind")
        return self.limits((0, 1))

    def expression(self):
        """Passes over an expression; answers the function that it names, None for null, and "other"
        for all else."""
        found = []
        while True:
            operator = self.byte()
            if operator == END:
                return found[0] if len(found) == 1 else "other"
            if operator in FIXED:
                self.take(FIXED[operator])
                found.append(None if operator == REF_NULL else "other")
            elif operator == VECTOR and self.number() == 12:
                self.take(16)
                found.append("other")
            elif operator in (0x41, 0x42, GLOBAL_GET, REF_FUNC):
                number = self.number()
                found.append(number if operator == REF_FUNC else "other")
            else:
                raise LeftOut("an operator of another kind")


class GivenModule:
    """The same names as a random module has, for both kinds of objects at once."""

    def __init__(self, data):
        self.imports, self.functions, self.globals = [], 0, 0
        self.memories, self.tables, self.imported_memories, self.imported_tables = [], [], 0, 0
        self.values, self.elements, self.sections = [], [], []
        reader = Reader(data, len(HEADER))
        while reader.at < len(data):
            number, contents = reader.byte(), reader.take(reader.number())
            self.sections.append((number, contents))
            if number in READERS:
                inner = Reader(contents)
                for _ in range(inner.number()):
                    READERS[number](self, inner)
        if len({(one["module"], one["name"]) for one in self.imports}) < len(self.imports):
            raise LeftOut("two imports of one name")
        if any(pages > MOST_PAGES for pages in self.memories) or sum(self.tables) > MOST_CELLS:
            raise LeftOut("large memories or tables")

    def read_import(self, reader):
        one = {"module": reader.text(), "name": reader.text()}
        kind = reader.byte()
        if kind == 0:
            reader.number()
            self.functions += 1
            one["kind"] = "function"
        elif kind == 1:
            least, most = reader.table()
            self.tables.append(least)
            self.imported_tables += 1
            one.update(kind="table", least=least, most=most)
        elif kind == 2:
            least, most = reader.limits((0, 1))
            self.memories.append(least)
            self.imported_memories += 1
            one.update(kind="memory", least=least, most=most)
        else:
            self.read_imported_global(reader, kind, one)
        self.imports.append(one)

    def read_imported_global(self, reader, kind, one):
        type_, mutable = (reader.byte(), reader.byte()) if kind == 3 else (None, None)
        if type_ not in SIMPLE or mutable:
            raise LeftOut("an import of another kind")
        value = IMPORTED[len(self.values) % 2]
        one.update(kind=SIMPLE[type_], number=str(value))
        self.values.append(value)
        self.globals += 1

    def read_function(self, reader):
        reader.number()
        self.functions += 1

    def read_table(self, reader):
        self.tables.append(reader.table()[0])

    def read_memory(self, reader):
        self.memories.append(reader.limits((0, 1, 4, 5))[0])

    def read_global(self, reader):
        if reader.byte() in (0x63, 0x64):
            raise LeftOut("a global of a reference")
        reader.byte()
        reader.expression()
        self.globals += 1

    def read_element(self, reader):
        flag = reader.number()
        if flag % 2 == 0:
            if flag & 2:
                reader.number()
            reader.expression()
        if flag & 3:
            reader.byte()
        items = [reader.expression() if flag & 4 else reader.number() for _ in range(reader.number())]
        if "other" in items:
            raise LeftOut("an element of another kind")
        if flag % 2 == 0:
            self.elements.append(items)

    def spell(self):
        """The module with every entity exported, and without its start function."""
        kinds = [("f", 0, self.functions), ("t", 1, len(self.tables)), ("m", 2, len(self.memories)), ("g", 3, self.globals)]
        exports = [name(f"{letter}{place}") + bytes([byte]) + unsigned(place) for letter, byte, count in kinds for place in range(count)]
        own, made, spelled = section(7, vector(exports)), HEADER, False
        for number, contents in self.sections:
            if number in (8, 9, 10, 11, 12) and not spelled:
                made, spelled = made + own, True
            if number not in (7, 8):
                made += section(number, contents)
        return made if spelled else made + own


READERS = {
    2: GivenModule.read_import,
    3: GivenModule.read_function,
    4: GivenModule.read_table,
    5: GivenModule.read_memory,
    6: GivenModule.read_global,
    9: GivenModule.read_element,
}
