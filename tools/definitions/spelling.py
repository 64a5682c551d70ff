"""Spells modules: numbers, lists, sections, and types by the bytes of the standard or by the older
ones of an engine."""

HEADER = b"\0asm\1\0\0\0"
NUMBERS = {"i32": 0x7F, "i64": 0x7E, "f32": 0x7D, "f64": 0x7C, "v128": 0x7B}


def unsigned(number):
    spelled = bytearray()
    while number > 127:
        spelled.append(number & 127 | 128)
        number >>= 7
    return bytes(spelled + bytes([number]))


def signed(number):
    spelled = bytearray()
    while not -64 <= number < 64:
        spelled.append(number & 127 | 128)
        number >>= 7
    return bytes(spelled + bytes([number & 127]))


def vector(items):
    return unsigned(len(items)) + b"".join(items)


def section(number, contents):
    return bytes([number]) + unsigned(len(contents)) + contents


def name(text):
    return unsigned(len(text)) + text.encode()


class Types:
    """The bytes of types."""

    def __init__(self, group, open_type, final_type, nullable, not_null, heaps):
        self.group, self.open_type, self.final_type = group, open_type, final_type
        self.nullable, self.not_null, self.heaps = nullable, not_null, heaps

    def heap(self, heap):
        return signed(heap) if isinstance(heap, int) else bytes([self.heaps[heap]])

    def value(self, value):
        """A number by its name, or (whether it may be null, a heap type)."""
        if isinstance(value, str):
            return bytes([NUMBERS[value]])
        return bytes([self.nullable if value[0] else self.not_null]) + self.heap(value[1])

    def field(self, field):
        return self.value(field[0]) + bytes([field[1]])

    def composite(self, kind, *parts):
        if kind == "function":
            return b"\x60" + vector([self.value(part) for part in parts[0]]) + vector([self.value(part) for part in parts[1]])
        return b"\x5f" + vector([self.field(part) for part in parts[0]]) if kind == "struct" else b"\x5e" + self.field(parts[0])

    def member(self, member):
        """A type of a group: whether it stands plain, open or final, and what it is."""
        form, composite = member
        head = b"" if form == "plain" else bytes([self.open_type if form == "open" else self.final_type, 0])
        return head + self.composite(*composite)

    def members(self, group):
        return self.member(group[0]) if len(group) == 1 else bytes([self.group]) + vector([self.member(member) for member in group])


SAME = {"eq": 0x6D, "any": 0x6E, "extern": 0x6F, "func": 0x70}
STANDARD = Types(0x4E, 0x50, 0x4F, 0x63, 0x64, {**SAME, "array": 0x6A, "struct": 0x6B, "i31": 0x6C, "none": 0x71, "noextern": 0x72, "nofunc": 0x73})
# The bytes of the proposal before they were settled; V8 had them until 2023.
OLDER = Types(0x4F, 0x50, 0x4E, 0x6C, 0x6B, {**SAME, "array": 0x66, "struct": 0x67, "i31": 0x6A, "none": 0x65, "noextern": 0x69, "nofunc": 0x68})
