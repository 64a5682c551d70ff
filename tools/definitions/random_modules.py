"""Random modules with much in their initialisers: segments that overlap, are empty, end at the end
or past it, by constants, globals and sums."""

from spelling import HEADER, name, section, signed, unsigned, vector

PAGE = 65536
FUNCTIONS = 4
EDGES = [-1, 0, 65530, 65535, PAGE]
WIDE_FLAG, END = b"\4", b"\x0b"
EMPTY_BODY = unsigned(2) + b"\0\x0b"


class RandomModule:
    """A module of memories or of tables; `has` says what the engine has."""

    def __init__(self, random, has):
        self.random, self.has = random, has
        self.kind = random.choice(["memory", "table"])
        # Of a tame module no segment traps, and all are on objects of its own: images can be made of them.
        self.is_tame = random.random() < 0.3
        # What the active segments write, in order: bytes, or functions with None for null.
        self.written = []
        self.imports = [{"name": "g", "kind": "i32", "number": str(random.choice([0, 1, 5, 17, 40, 65535, 4294967295]))}]
        self.imports.append({"name": "h", "kind": "i64", "number": str(random.choice([0, 3, 8, 40, 65535, PAGE, 2**64 - 1]))})
        # The globals that an offset may read, of 32 bits and of 64.
        self.readable = {False: [0], True: [1]}
        # Of each object whether its places have 64 bits, and how many pages or cells it has at first.
        self.wide, self.sizes = [], []
        self.globals, self.spelled = [], []
        self.make_objects()
        self.make_globals()

    def make_objects(self):
        random = self.random
        several = self.has["several memories"] if self.kind == "memory" else True
        count = random.randrange(1, 4) if several else 1
        self.imported = [] if self.is_tame else list(range(sum(random.random() < 0.4 for _ in range(count))))
        for place in self.imported:
            self.imports.append({"name": f"{self.kind[0]}{place}", "kind": self.kind})
            self.wide.append(False)
            self.sizes.append(1 if self.kind == "memory" else 8)
        for _ in range(count - len(self.imported)):
            self.make_memory() if self.kind == "memory" else self.make_table()

    def make_memory(self):
        self.wide.append(self.has["wide memories"] and self.random.random() < 0.4)
        self.sizes.append(self.random.choice([1, 2] if self.is_tame else [0, 1, 1]))
        self.spelled.append((WIDE_FLAG if self.wide[-1] else b"\0") + unsigned(self.sizes[-1]))

    def make_table(self):
        self.wide.append(self.has["wide tables"] and self.random.random() < 0.3)
        self.sizes.append(10)
        plain = b"\x70" + (WIDE_FLAG if self.wide[-1] else b"\0") + unsigned(10)
        if self.has["initialised tables"] and self.random.random() < 0.4:
            plain = b"\x40\0" + plain + b"\xd2" + unsigned(self.random.randrange(FUNCTIONS)) + END
        self.spelled.append(plain)

    def make_globals(self):
        for place in range(2, 2 + self.random.randrange(3)):
            wide = self.random.random() < 0.4
            self.globals.append((b"\x7e" if wide else b"\x7f") + b"\0" + self.number(wide, 40) + END)
            if self.has["own globals"]:
                self.readable[wide].append(place)

    def number(self, wide, near):
        """A constant expression: a constant, a global, or a sum, difference or product."""
        random, chance = self.random, self.random.random()
        if chance < 0.5:
            constant = random.choice([random.randrange(near), random.randrange(near), random.choice(EDGES), -random.randrange(1, 9)])
            return (b"\x42" if wide else b"\x41") + signed(constant)
        if chance < 0.65 or not self.has["sums"]:
            return b"\x23" + unsigned(random.choice(self.readable[wide]))
        join = random.choice([0x7C, 0x7D, 0x7E] if wide else [0x6A, 0x6B, 0x6C])
        return self.number(wide, near) + self.number(wide, near) + bytes([join])

    def offset(self, wide, room):
        """A place below a number in a tame module, else anything."""
        if self.is_tame:
            return (b"\x42" if wide else b"\x41") + signed(self.random.randrange(room))
        return self.number(wide, 60 if self.kind == "memory" else 11)

    def element(self):
        random = self.random
        flag = random.choice([0, 0, 1, 2, 2, 3, 4, 5, 6, 6, 7])
        table = random.randrange(len(self.wide)) if flag in (2, 6) else 0
        offset, items = self.offset(self.wide[table], 7) + END, [random.randrange(FUNCTIONS) for _ in range(random.randrange(4))]
        if flag & 4:
            items = [None if random.random() < 0.5 else item for item in items]
            spelled = vector([(b"\xd0\x70" if item is None else b"\xd2" + unsigned(item)) + END for item in items])
        else:
            spelled = vector(list(map(unsigned, items)))
        if flag % 2 == 0:
            self.written.append(items)
        where = (unsigned(table) if flag & 2 else b"") + offset if flag % 2 == 0 else b""
        kind = (b"\x70" if flag & 4 else b"\0") if flag & 3 else b""
        return bytes([flag]) + where + kind + spelled

    def segment(self):
        random = self.random
        memory = random.randrange(len(self.wide))
        length, zeros = random.choice([0, 1, 2, 5, 9, 9, 300]), random.random() < 0.2
        data = bytes(0 if zeros or random.random() < 0.2 else random.randrange(256) for _ in range(length))
        spelled = unsigned(length) + data
        if random.random() < 0.2:
            return b"\1" + spelled
        self.written.append(data)
        flag = b"\0" if memory == 0 and random.random() < 0.5 else b"\2" + unsigned(memory)
        return flag + self.offset(self.wide[memory], random.choice([60, 6000, PAGE - length])) + END + spelled

    def exports(self):
        made = [name(f"f{place}") + b"\0" + unsigned(place) for place in range(FUNCTIONS)]
        made += [name(f"g{place}") + b"\3" + unsigned(place) for place in range(2 + len(self.globals))]
        byte = b"\2" if self.kind == "memory" else b"\1"
        return made + [name(f"{self.kind[0]}{place}") + byte + unsigned(place) for place in range(len(self.wide))]

    def import_bytes(self, one):
        types = {"i32": b"\3\x7f\0", "i64": b"\3\x7e\0", "memory": b"\2\0" + unsigned(1), "table": b"\1\x70\0" + unsigned(8)}
        return name("m") + name(one["name"]) + types[one["kind"]]

    def objects(self):
        """Its parts as a given module has them (tools/engine/given.py): both kinds at once, by numbers."""
        is_table = self.kind == "table"
        self.tables, self.memories = (self.sizes, []) if is_table else ([], self.sizes)
        self.imported_tables, self.imported_memories = (len(self.imported), 0) if is_table else (0, len(self.imported))
        self.values, self.elements = [int(one["number"]) for one in self.imports[:2]], self.written if is_table else []

    def spell(self):
        some = range(self.random.randrange(1, 6))
        rows = [(1, [b"\x60\0\0"]), (2, list(map(self.import_bytes, self.imports))), (3, [unsigned(0)] * FUNCTIONS)]
        rows += [(4 if self.kind == "table" else 5, self.spelled), (6, self.globals), (7, self.exports())]
        rows += [(9, [self.element() for _ in some] if self.kind == "table" else []), (10, [EMPTY_BODY] * FUNCTIONS)]
        rows += [(11, [self.segment() for _ in some] if self.kind == "memory" else [])]
        return HEADER + b"".join(section(number, vector(items)) for number, items in rows if items)


def mutated(random, data, kept):
    """One or two small changes behind the header; `kept` is a place behind which some bytes stay,
    those of bodies."""
    changed = bytearray(data)
    for _ in range(random.choice([1, 1, 1, 2])):
        place = random.randrange(8, len(changed))
        if kept <= place < kept + 15:
            continue
        chance = random.random()
        if chance < 0.5:
            usual = [0, 1, 2, 3, 4, 5, 0x0B, 0x23, 0x40, 0x41, 0x60, 0x6F, 0x70, 0x7F, 0x80, 0xFF]
            changed[place] = random.choice([*usual, changed[place] ^ 1, changed[place] ^ 1 << random.randrange(8)])
        elif chance < 0.75:
            del changed[place]
        else:
            changed.insert(place, random.randrange(256))
    return bytes(changed)
