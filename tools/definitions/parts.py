"""What is not evaluated as text: the joints of the grammar, which are relations between bytes and
values, and typing's two relations.

A part of the grammar is here what reads it: from a place of the input, up to an end. It answers a
value and the place behind it, raises `NotSpelled` where nothing is spelled, and `Stopped` where
reading stops. That at most one value is spelled is a law that is proved (`spelling_is_unique`), so
reading finds all that the relation holds of. The rows of the grammar are evaluated as they stand.
"""

from evaluator import Function, Made


class NotSpelled(Exception):
    """The bytes spell no value of a part."""


class Stopped(Exception):
    """Reading comes to a spelling that is not taken."""

    def __init__(self, what):
        super().__init__(what)
        self.what = what


class Part:
    """`read(data, at, end)` answers a value and the place behind it."""

    __slots__ = ("read",)

    def __init__(self, read):
        self.read = read


def gives(value):
    return Part(lambda data, at, end: (value, at))


def nothing(data, at, end):
    raise NotSpelled


def stops_at(what):
    def read(data, at, end):
        raise Stopped(what)

    return Part(read)


def seven_bits_a_byte(data, at, end, bits):
    """A sum of seven bits a byte, the last byte alone below 128, in at most so many bytes; and
    whether its highest bit is set."""
    total, shift = 0, 0
    while True:
        if shift >= bits or at >= end:
            raise NotSpelled
        byte = data[at]
        total += (byte & 127) << shift
        at, shift = at + 1, shift + 7
        if byte < 128:
            return total, shift, bool(byte & 64), at


def unsigned(bits):
    def read(data, at, end):
        total, _, _, behind = seven_bits_a_byte(data, at, end, bits)
        if total >= 1 << bits:
            raise NotSpelled
        return total, behind

    return Part(read)


def signed(bits, least=None):
    least = -(1 << bits - 1) if least is None else least

    def read(data, at, end):
        total, shift, is_negative, behind = seven_bits_a_byte(data, at, end, bits)
        value = total - (1 << shift) if is_negative else total
        if not least <= value < 1 << bits - 1:
            raise NotSpelled
        return value, behind

    return Part(read)


def raw_bytes(count):
    def read(data, at, end):
        if at + count > end:
            raise NotSpelled
        return list(data[at : at + count]), at + count

    return Part(read)


def all_bytes_as(function):
    return Part(lambda data, at, end: (function(list(data[at:end])), end))


def joined(first, second):
    def read(data, at, end):
        value, behind = first.read(data, at, end)
        return second(value).read(data, behind, end)

    return Part(read)


def checked(test, part):
    def read(data, at, end):
        value, behind = part.read(data, at, end)
        if test(value) is not True:
            raise NotSpelled
        return value, behind

    return Part(read)


def by_byte(function, taken):
    """The part that a byte asks for, which begins behind the byte where it is taken."""

    def read(data, at, end):
        if at >= end:
            raise NotSpelled
        return function(data[at]).read(data, at + taken, end)

    return Part(read)


def measured(part):
    def read(data, at, end):
        value, behind = part.read(data, at, end)
        return (value, behind - at), behind

    return Part(read)


def elements(part, count):
    def read(data, at, end):
        values = []
        for _ in range(count):
            value, at = part.read(data, at, end)
            values.append(value)
        return values, at

    return Part(read)


def filled(part, count):
    def read(data, at, end):
        if at + count > end:
            raise NotSpelled
        value, behind = part.read(data, at, at + count)
        if behind != at + count:
            raise NotSpelled
        return value, behind

    return Part(read)


def expression(evaluator):
    """Operators up to the end mark."""
    operator = evaluator.find("wasm_spec", "operator")

    def read(data, at, end):
        operators = []
        while at < end and data[at] != 0x0B:
            one, at = operator.read(data, at, end)
            operators.append(one)
        if at >= end:
            raise NotSpelled
        return operators, at + 1

    return Part(read)


def custom_after(evaluator):
    """All that follows a name; behind a name of interface types reading stops."""
    names = evaluator.find("wasm_spec", "interface_names")

    def part(name):
        def read(data, at, end):
            if name in names:
                raise Stopped(Made("InterfaceTypes"))
            return Made("Custom", (name, list(data[at:end]))), end

        return Part(read)

    return Function(part, 1)


def read_module(evaluator, data):
    """The module that the bytes spell: `Spells` and `Stops` as a loop over `section`, which is evaluated."""
    data = bytes(data)
    header, magic = (evaluator.find("wasm_spec", name) for name in ("header", "magic"))
    section, next_order = (evaluator.find("wasm_spec", name) for name in ("section", "next_order"))
    if list(data[: len(header)]) != header:
        if list(data[: len(magic)]) == magic and len(data) >= 8 and data[6:8] == b"\1\0":
            raise Stopped(Made("Component"))
        raise NotSpelled
    at, order, module = len(header), 0, []
    while at < len(data):
        payload, at = section(at, order).read(data, at, len(data))
        order = next_order(order, payload)
        module.append(payload)
    return module


def constant(value):
    return lambda evaluator: value


# Laws whose proofs stand beside an answer, each with the count of what it takes: nothing reads them.
PROOFS = {("type_spec", "down-decided"): 5, ("type_spec", "function-decides"): 2, ("rule_spec", "classes-decide"): 2, ("wasm_types", "heap-is"): 1}


def table():
    """What stands in place of a definition, by its crate and name."""
    joints = {
        "gives": Function(gives, 1),
        "nothing": Part(nothing),
        "stops_at": Function(stops_at, 1),
        "unsigned": Function(unsigned, 1),
        "signed": Function(signed, 1),
        "non_negative": Function(lambda bits: signed(bits, 0), 1),
        "raw_bytes": Function(raw_bytes, 1),
        "all_bytes_as": Function(all_bytes_as, 1),
        "checked": Function(checked, 2),
        "first_byte": Function(lambda function: by_byte(function, 1), 1),
        "next_byte": Function(lambda function: by_byte(function, 0), 1),
        "measured": Function(measured, 1),
        "elements": Function(elements, 2),
        "filled": Function(filled, 2),
    }
    made = {("wasm_spec", name): constant(value) for name, value in joints.items()}
    made["wasm_spec", "expression"] = expression
    made["wasm_spec", "custom_after"] = custom_after
    for law, arity in PROOFS.items():
        made[law] = constant(Function(lambda *given: True, arity))
    return made

