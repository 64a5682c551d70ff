"""The cases of `plan_cases`: what the definitions say of the bytes of each, against what is wanted
there (crates/plan_cases/README.md)."""

import re

from evaluator import NotEvaluated

HEADER = b"\0asm\1\0\0\0"
GIVEN = {"words", "header", "section", "bytes", "again", "first", "reads", "writes", "room", "failing-reads", "failing-writes"}
SIZES_BELOW = ("refused too large", "refused offset overflow")
# Cases beyond this many bytes take minutes here.
MOST_BYTES = 60000


class Case:
    def __init__(self, file, name, before):
        self.file, self.name, self.before = file, name, before
        self.bytes, self.words, self.lengths, self.wanted = b"", None, None, []

    def read(self, line):
        word, *rest = line.split(" ")
        if word == "header":
            self.bytes += HEADER
        elif word == "section":
            contents = b"".join(map(piece, rest[1:]))
            self.bytes += bytes.fromhex(rest[0]) + size(len(contents)) + contents
        elif word == "bytes":
            self.bytes += b"".join(map(piece, rest))
        elif word == "again":
            self.bytes += self.before
        elif word == "words":
            self.words = rest
        elif word == "first":
            first, _, last = rest[0].partition("..")
            self.lengths = range(int(first), int(last or first) + 1)
        elif word not in GIVEN:
            self.wanted.append(line)

    def wants(self, *words):
        return any(line.split(" ")[0] in words for line in self.wanted)

    def is_plan_of_bytes(self):
        """Whether a plan is asked for, and neither the words nor a device is at fault."""
        return bool(self.words) and self.words[0] == "plan" and not self.wants("status", "cut") and len(self.bytes) <= MOST_BYTES

    def verdict(self):
        return next((line for line in self.wanted if line.startswith("refused ")), "planned")

    def inputs(self):
        return [self.bytes[:length] for length in self.lengths] if self.lengths is not None else [self.bytes]


def piece(text):
    times, star, rest = text.partition("*")
    if star and times.isdigit():
        return bytes.fromhex(rest) * int(times)
    if text.startswith('"'):
        return text[1:-1].encode()
    if text.startswith("'"):
        return bytes([len(text[1:-1].encode())]) + text[1:-1].encode()
    return bytes.fromhex(text)


def size(number):
    """One byte below 128, else five, as the cases have it."""
    return bytes([number]) if number < 128 else bytes([number >> shift & 127 | (128 if shift < 28 else 0) for shift in range(0, 35, 7)])


def read_cases(top):
    cases = []
    for path in sorted((top / "crates" / "plan_cases" / "data").glob("*.txt")):
        case, before = None, b""
        for line in path.read_text().split("\n"):
            if line.startswith("case "):
                before = case.bytes if case else b""
                case = Case(path.name, line[5:], before)
                cases.append(case)
            elif line.strip() and not line.startswith("#"):
                case.read(line)
    return cases


def type_lines(definitions, case, module):
    find = definitions.find
    for startup in (False, True):
        held = find("interned_types", "interned_list")(module, startup)
        yield f"types {len(held['types'])}"
        yield from (f"group {number} {group['start']} {group['end']}" for number, group in enumerate(held["groups"]))


def declared_lines(definitions, case, module):
    yield from (f"declared {place} {index}" for place, index in enumerate(definitions.find("interned_types", "declared")(module)))


def escape_lines(definitions, case, module):
    lists = definitions.find("rule_spec", "lists_of_module")(module)
    escaping = definitions.find("module_sections", "escaping")("--guest-debug" in case.words, lists)
    yield from (f"escape {function} {number}" for number, function in enumerate(escaping))


def start_lines(definitions, case, module):
    yield from (f"start {function}" for function in definitions.find("rule_spec", "lists_of_module")(module)["starts"])


def count_lines(definitions, case, module):
    find = definitions.find
    for name, kind in KINDS.items():
        imported = len(find("wasm_spec", "imported_of")(find("wasm_spec", f"{kind}_import"), module))
        yield f"{name} {imported} {len(find('wasm_spec', name)(module)) - imported}"


KINDS = {"functions": "function", "tables": "table", "memories": "memory", "globals": "global", "tags": "tag"}
# What gives the lines of a plan that begin with a word.
LINES = {"declared": declared_lines, "escape": escape_lines, "group": type_lines, "types": type_lines, "start": start_lines}
LINES.update(dict.fromkeys(KINDS, count_lines))


def wanted_lines(case):
    lines = (re.sub(r"^(has|text) ", "", line) for line in case.wanted if line.startswith(("has ", "text ")))
    return [line for line in lines if line.split(" ")[0] in LINES]


def check_verdicts(definitions, top, outcome):
    """Each input of each case: malformed, unsupported, the first broken rule, or taken. Sizes are
    no part of it: then it is taken."""
    for case in read_cases(top):
        if not case.is_plan_of_bytes():
            outcome.leave_out("cases of words, of devices or of many bytes")
            continue
        wanted = case.verdict()
        for data in case.inputs():
            try:
                found = definitions.verdict(data)[1]
            except (NotEvaluated, MemoryError) as error:
                found = f"not evaluated: {error}"
            same = found == wanted or (found == "planned" and wanted in SIZES_BELOW)
            outcome.count(same, data, f"{case.file}, {case.name}: wanted {wanted}, found {found}")


def missing_lines(definitions, case, module, wanted):
    """Those of the wanted lines that definitions do not give; no more is evaluated than they need."""
    missing = set(wanted)
    for word in {line.split(" ")[0]: None for line in wanted}:
        lines = LINES[word](definitions, case, module)
        while any(line.startswith(word + " ") for line in missing) and (line := next(lines, None)):
            missing.discard(line)
    return missing


def check_lines(definitions, top, outcome):
    """Those lines of wanted texts that definitions give."""
    for case in read_cases(top):
        wanted = wanted_lines(case)
        if not case.is_plan_of_bytes() or case.lengths is not None or case.verdict() != "planned" or not wanted:
            continue
        module, _ = definitions.verdict(case.bytes)
        outcome.note("cases")
        missing = set(wanted) if module is None else missing_lines(definitions, case, module, wanted)
        for line in wanted:
            outcome.count(line not in missing, case.bytes, f"{case.file}, {case.name}: no line {line}")
