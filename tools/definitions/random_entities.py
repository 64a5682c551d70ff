"""Random entities that one module gives and another wants: functions, tables, memories and globals
whose types are near each other."""

from evaluator import NONE, Fields, Made, some
from spelling import HEADER, NUMBERS, name, section, unsigned, vector

# Function types without references, each by its number: equal ones are the same.
SIGNATURES = [([], []), (["i32"], []), ([], ["i32"]), (["i32"], ["i32"]), (["i32", "i64"], []), (["i64", "i32"], [])]
ELEMENTS = {"func": 0x70, "extern": 0x6F}
CONSTANTS = {"i32": b"\x41\0", "i64": b"\x42\0", "f32": b"\x43" + bytes(4), "f64": b"\x44" + bytes(8)}
TYPES = section(1, vector([b"\x60" + b"".join(vector([bytes([NUMBERS[one]]) for one in part]) for part in parts) for parts in SIGNATURES]))


class Entity:
    """An entity: its kind, its section and its type's bytes; what it is as a definition sees it."""

    def __init__(self, random, has, kind):
        self.kind = kind
        getattr(self, f"make_{kind}")(random, has)

    def make_function(self, random, has):
        number = random.randrange(len(SIGNATURES))
        self.place, self.bytes, self.body = 3, unsigned(number), b""
        self.seen = Made("Function", (number,))

    def make_global(self, random, has):
        kind, mutable = random.choice(list(CONSTANTS)), random.random() < 0.5
        self.place, self.bytes, self.body = 6, bytes([NUMBERS[kind], mutable]), CONSTANTS[kind] + b"\x0b"
        self.seen = Made("Global", (Fields(mutability=mutable, wasm_ty=kind),))

    def limits(self, random, wide, shared):
        """The bytes of limits, and what they are."""
        least = random.randrange(4)
        most = least + random.randrange(3) if shared or random.random() < 0.6 else None
        flags = (most is not None) + 2 * shared + 4 * wide
        spelled = bytes([flags]) + unsigned(least) + (b"" if most is None else unsigned(most))
        return spelled, Fields(min=least, max=NONE if most is None else some(most))

    def make_table(self, random, has):
        element, wide = random.choice(list(ELEMENTS)), has["wide tables"] and random.random() < 0.3
        spelled, limits = self.limits(random, wide, False)
        self.place, self.bytes, self.body = 4, bytes([ELEMENTS[element]]) + spelled, b""
        self.seen = Made("Table", (Fields(ref_type=element, idx_type=wide, limits=limits),))

    def make_memory(self, random, has):
        # An engine that has memories of 64 bits behind a switch alone does not compare them when it links.
        wide, shared = has["wide tables"] and random.random() < 0.3, random.random() < 0.3
        self.place, self.body = 5, b""
        self.bytes, limits = self.limits(random, wide, shared)
        self.seen = Made("Memory", (Fields(idx_type=wide, shared=shared, page_size_log2=16, limits=limits),))

    def exporter(self):
        byte = bytes([["function", "table", "memory", "global"].index(self.kind)])
        own, exported = section(self.place, vector([self.bytes + self.body])), section(7, vector([name("g0") + byte + b"\0"]))
        code = section(10, vector([unsigned(3) + b"\0\0\x0b"])) if self.kind == "function" else b""
        return HEADER + TYPES + own + exported + code

    def importer(self):
        byte = bytes([["function", "table", "memory", "global"].index(self.kind)])
        return HEADER + TYPES + section(2, vector([name("m") + name("g") + byte + self.bytes]))


def random_entities(random, has):
    """What is given and what is wanted, mostly of one kind."""
    kinds = ["function", "table", "table", "memory", "memory", "global"]
    kind = random.choice(kinds)
    return Entity(random, has, kind), Entity(random, has, kind if random.random() < 0.9 else random.choice(kinds))
