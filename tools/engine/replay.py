"""The replay of a plan's text and runtime data: what it leaves over given imports. It uses nothing
of the definitions."""

import re

NULL = -1
BITS = {"i32": 32, "i64": 64}
JOINS = {"add": lambda one, other: one + other, "sub": lambda one, other: one - other, "mul": lambda one, other: one * other}


class NotRead(Exception):
    """A line says what this replay does not know."""


def value_of(text, values):
    """The value of an expression of the text: a number without sign, or a function by its index,
    with -1 for null."""
    stack = []
    for operator in text.split("; "):
        name, *rest = operator.split(" ")
        kind, _, what = name.partition(".")
        if what == "const" and kind in BITS:
            stack.append(int(rest[0]) % (1 << BITS[kind]))
        elif name == "global.get":
            stack.append(values[int(rest[0])])
        elif name == "ref.func":
            stack.append(int(rest[0]))
        elif name == "ref.null":
            stack.append(NULL)
        elif what in JOINS and kind in BITS:
            other, one = stack.pop(), stack.pop()
            stack.append(JOINS[what](one, other) % (1 << BITS[kind]))
        else:
            raise NotRead(operator)
        if stack[-1] is None:
            raise NotRead(text)
    if len(stack) != 1:
        raise NotRead(text)
    return stack[0]


def globals_of(plan, imported):
    """The values of all globals: those that are written as constants, and then those that are kept
    as expressions. None for other kinds."""
    values = dict(enumerate(imported))
    for word in ("global", "global-expr"):
        for line in plan.of(word):
            place, _, text = line.partition(" ")
            try:
                values[len(imported) + int(place)] = value_of(text, values)
            except NotRead:
                values[len(imported) + int(place)] = None
    return values


def written(objects, pieces):
    """Writes pieces, each (object, offset, items), in order; answers whether one did not fit, at
    which writing ends."""
    for place, offset, items in pieces:
        if offset + len(items) > len(objects[place]):
            return True
        objects[place][offset : offset + len(items)] = items
    return False


def segments_of(plan, values):
    """The segments of a plan: (memory, offset, bytes, whether the offset is one of an image)."""
    for line in plan.of("segment"):
        memory, runtime, _, text = line.split(" ", 3)
        is_static = text.startswith("static ")
        offset = int(text[7:]) if is_static else value_of(text, values)
        yield int(memory), offset, plan.runtime[int(runtime)], is_static


def memories_of(plan, values, sizes, imported):
    """Both readings of the memories: by the list of segments; by the map of images, with the
    segments that are no images."""
    begin = [bytearray(contents) for contents in imported] + [bytearray(size) for size in sizes[len(imported) :]]
    by_list, by_map = ([bytearray(one) for one in begin] for _ in range(2))
    segments = list(segments_of(plan, values))
    list_traps = written(by_list, [segment[:3] for segment in segments])
    images = [tuple(map(int, line.split(" "))) for line in plan.of("image")]
    if written(by_map, [(memory, offset, plan.runtime[runtime]) for memory, offset, runtime in images]):
        raise NotRead("an image that leaves its memory")
    map_traps = written(by_map, [segment[:3] for segment in segments if not segment[3]])
    return {"list": (by_list, list_traps), "map": (by_map, map_traps)}


def tables_of(plan, values, sizes, imported, active):
    """The tables; `active` has the items of the module's active segments, of which the plan keeps
    the last ones."""
    count = len(imported)
    tables = [list(cells) for cells in imported] + [[NULL] * size for size in sizes[count:]]
    for line in plan.of("table-expr"):
        place, _, text = line.partition(" ")
        tables[count + int(place)] = [value_of(text, values)] * sizes[count + int(place)]
    for line in plan.of("table-image"):
        place, length, *cells = line.split(" ")
        if len(cells) != int(length):
            raise NotRead("a table image of another length")
        tables[count + int(place)][: len(cells)] = [NULL if cell == "null" else int(cell) for cell in cells]
    kept = [re.match(r"(\d+) (\d+) at (.*)", line).groups() for line in plan.of("element")]
    pieces = []
    for (table, length, text), items in zip(kept, active[len(active) - len(kept) :]):
        if int(length) != len(items):
            raise NotRead("an element segment of another length")
        pieces.append((int(table), value_of(text, values), [NULL if item is None else item for item in items]))
    return tables, written(tables, pieces)


def declared(plan):
    """The interned index of each declared type, in order."""
    return [int(line.split(" ")[1]) for line in plan.of("declared")]
