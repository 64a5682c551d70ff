"""Where the fields of the C interface's records stand, as the header declares them for 64-bit memories.

The header is read for the names of its records, fields and numbers; where each field stands and how
long it is, the kit's clang says. So a field that the header gains is known to the page with the
next build, and none is written down twice.
"""

import re
import subprocess

PREFIX = "bobbinazure_"
NUMBERS = {"uint8_t": 1, "uint16_t": 2, "uint32_t": 4, "uint64_t": 8, "size_t": 8}


class UnknownDeclaration(Exception):
    """The header has a declaration of a form that is not read here."""


def short(name):
    """A name without what all names of the header begin with."""
    return re.sub(rf"^{PREFIX}", "", name, flags=re.I)


def records_of(header):
    """The records of the header, each with its fields: their names and types, in order."""
    text = re.sub(r"/\*.*?\*/", "", header, flags=re.S)
    records = {}
    for body, name in re.findall(r"typedef struct \{(.*?)\} (\w+);", re.sub(r"\s+", " ", text)):
        records[short(name)] = dict(field for line in body.split(";") if line.strip() for field in fields_of(line.strip()))
    return records


def fields_of(line):
    """The fields that one line of a record declares, each with its type."""
    listed = re.fullmatch(r"BOBBINAZURE_LIST\((\w+)\) (\w+)", line)
    if listed:
        return [(listed[2], {"list": short(listed[1])})]
    pointer = re.fullmatch(r"const (\w+) \*(\w+)", line)
    if pointer:
        return [(pointer[2], {"pointer": short(pointer[1])})]
    plain = re.fullmatch(r"(\w+) (\w+(?:, \w+)*)", line)
    if not plain:
        raise UnknownDeclaration(line)
    kind = {"number": NUMBERS[plain[1]]} if plain[1] in NUMBERS else {"record": short(plain[1])}
    return [(name, dict(kind)) for name in plain[2].split(", ")]


def numbers_of(header):
    """The names of the header's enumerations."""
    text = re.sub(r"/\*.*?\*/", "", header, flags=re.S)
    return [name for body in re.findall(r"enum \{(.*?)\}", text, re.S) for name in re.findall(r"(\w+) = ", body)]


def asked(records, numbers):
    """A file of C whose one constant has each size, each place and each number, in order."""
    wanted = []
    for name, fields in records.items():
        wanted.append(f"sizeof({PREFIX}{name})")
        wanted += [f"offsetof({PREFIX}{name}, {field})" for field in fields]
    wanted += [f"(unsigned long long){name}" for name in numbers]
    return f'#include "bobbinazure.h"\nconst unsigned long long told[] = {{{", ".join(wanted)}}};\n'


def layout_of(header, clang, flags, folder):
    """The layout: each record's size and fields, and each number by its name."""
    text = header.read_text()
    records, numbers = records_of(text), numbers_of(text)
    source = folder / "layout.c"
    source.write_text(asked(records, numbers))
    said = subprocess.run([clang, *flags, "-I", header.parent, "-S", "-emit-llvm", source, "-o", "-"], stdout=subprocess.PIPE, check=True, text=True)
    told = iter(int(number) for number in re.findall(r"i64 (-?\d+)", re.search(r"@told = .*?\[\d+ x i64\] \[(.*?)\]", said.stdout)[1]))
    laid = {}
    for name, fields in records.items():
        laid[name] = {"size": next(told), "fields": {field: {"at": next(told), **kind} for field, kind in fields.items()}}
    return {"records": laid, "numbers": {short(name).lower(): next(told) for name in numbers}}
