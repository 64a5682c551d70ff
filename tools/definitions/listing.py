"""Writes docs/DEFINITIONS.md from the sources: each definition that the contract of `run` depends
on, in the order of reading."""

import re

WIDE = 160
SECTION = re.compile(r"\s*\((?:core specification, )?(\d\.\d[^()]*|appendix, [^()]*|branch hinting, [^()]*)\)")

HEAD = """\
# Definitions

`tools/audit --write` writes this page from `crates/*/specs`. `tools/audit` fails where the page differs from them.

The contract of `run` depends on {definitions} definitions: {lines} lines in {files} files, with those behind `AlsoHolds`, which follow from the rest. They are listed here file by file, in the order of reading.
Of a law only the statement counts: its proof is shut to whoever cites it.
Each has its comment's sentence, its lines in the file, and its section of the WebAssembly core specification 3.0 where the comment names one.
A section is a chapter's number and a title, since numbers below chapters differ between printings. `..` marks a sentence that is cut here.
The [index](#index) at the end has all names.

## Words

These words have one meaning here. Each is beside the definition that has it, its crate and the number of its file.

"""

INDEX = """\

## Index

Each name with the number of its file.
"""

# The words that are no plain English, or mean one thing only: the word, the crate and the name of
# its definition, and its sentence.
WORDS = [
    ("agrees", "init_plan", "AgreesInAll", "a plan, replayed over any imports, gives the globals, memories and tables of the module's initialisers"),
    ("class", "rule_spec", "HasClass", "what coarse typing keeps of a type: a number type, vector or reference"),
    ("command", "command_words", "Names", "what the words after the program's name ask for"),
    ("context", "vm_offsets", "context_table", "the bytes of one instance by which compiled code finds everything"),
    ("data segment, active", "replay_spec", "module_phase", "a segment with a memory and an offset at which instantiation writes its bytes; all in order are the data phase"),
    ("dense", "replay_spec", "IsDense", "of segments: their extent is below twice their bytes, or below the extent that is always made an image"),
    ("edge", "wasm_spec", "group_edges", "a reference from a type to a type, in a fixed order"),
    ("escape", "module_sections", "escaping", "a function escapes where something makes a reference to it"),
    ("exception type", "type_spec", "with_exception", "the interned type that holds the parameters of a tag"),
    ("extent", "replay_spec", "extent", "of segments: from their least start to their greatest end"),
    ("image", "replay_spec", "IsImage", "whole pages of a memory around its bytes that are not zero, mapped copy-on-write in place of writing segments"),
    ("table image", "replay_spec", "IsTableImage", "the cells with which a table begins"),
    ("image rule", "replay_spec", "IsStatic", "when all active data segments become images"),
    ("interned list", "type_spec", "interned", "the types of a module, each once, with trampolines, exception types and the startup type"),
    ("kept segment", "replay_spec", "kept_segments", "a segment that is in no image, so startup writes it"),
    ("listed rules", "rule_spec", "Keeps", "the ten rules of validation that are checked"),
    ("lists", "rule_spec", "Lists", "the lists of a module, index spaces with imports first, made of its sections (`Module`). Rules and initialisers use the lists, in which an index is looked up; imports, memories and data segments are taken from the sections, whose order a plan keeps"),
    ("mapped type", "type_spec", "mapped", "a function type in which each reference is nullable, with the top of its hierarchy as heap type"),
    ("part", "wasm_spec", "Part", "a rule of the grammar: which bytes spell a value, and where reading stops"),
    ("phase", "replay_spec", "Phase", "one of three steps of instantiation: globals, tables, memories"),
    ("piece", "replay_spec", "Piece", "the items of one segment, with the object and the offset at which they are written"),
    ("plan", "translate", "IsPlanOf", "the result for a module: its translation, interned types, layouts and offsets"),
    ("pool", "entity_map", "with_text", "a list of texts, each once; the number of a text in it is its atom"),
    ("refusal", "translate", "HasCause", "why bytes have no plan"),
    ("region", "vm_offsets", "context_regions", "the bytes of a context from the start of one entry of its table to the start of the next"),
    ("replay", "replay_spec", "content_of", "what a list of pieces leaves in the objects of a phase; `trap_of` says at which piece it traps, counted from the last, since table images take segments from the front"),
    ("runtime data", "replay_spec", "ranges_from", "the byte strings that startup and instructions read, one after another"),
    ("spells", "wasm_spec", "Spells", "the bytes are a module by the grammar of the format"),
    ("startup", "replay_spec", "startup_of", "whether code must run when an instance is made: never, always, or where the engine did not map the images"),
    ("stops", "wasm_spec", "Stops", "reading comes to something that this reader does not support"),
    ("taken segment", "replay_spec", "TakesPrefix", "an element segment of the longest prefix that becomes table images"),
    ("tight", "replay_spec", "IsTight", "of an image: no page more than needed for its bytes that are not zero, and not much longer than the data"),
    ("trampoline", "type_spec", "assign_trampoline", "the function type by which a function is called from outside: its mapped type in the interned list"),
    ("translation", "module_environ", "IsTranslation", "the record of a module with what is known of it only while it is compiled"),
    ("valid input", "translate", "IsValid", "bytes that spell a module that keeps the listed rules, whose runtime data, objects and context have 32-bit sizes"),
]


def words_of(all_sources, reached, numbers):
    """The list of words, with the numbers of their files. A word whose definition is gone, or is no
    longer reached, stops it."""
    for word, crate, name, says in WORDS:
        definition = all_sources.find(crate, name)
        if (definition.file.module, definition.name) not in reached.definitions:
            raise LookupError(f"the contract does not depend on {crate} {name}, beside which the word {word} is explained")
        yield from wrapped(f"- **{word}**: {says} (`{name}`, `{crate}` [{numbers[definition.file.module]}])")


def wrapped(text, wide=110):
    """An item of a list as lines."""
    line = ""
    for word in text.split(" "):
        if line and len(line) + 1 + len(word) > wide:
            yield line
            line = " "
        line = f"{line} {word}" if line else word
    yield line


def comment_of(lines):
    return " ".join(line.strip()[2:].strip() for line in lines)


def sentence_and_section(comment):
    """The first sentence of a comment, and the section of the standard that the comment names."""
    found = SECTION.search(comment)
    plain = SECTION.sub("", comment).strip()
    first = re.split(r"(?<=[a-z0-9`)])\. ", plain)[0].rstrip(".")
    return first.replace("|", "\\|"), found.group(1) if found else ""


def lines_of(definition):
    first, last = definition.start + 1, definition.start + len(definition.told())
    return str(first) if first == last else f"{first}-{last}"


def cut(text, most):
    return text if len(text) <= most else text[: most - 3].rsplit(" ", 1)[0].rstrip(",;:") + " .."


def row_of(definition):
    says, section = sentence_and_section(comment_of(definition.comment()))
    name, lines = definition.name.replace("|", "\\|"), lines_of(definition)
    frame = f"| `{name}` |  | {lines} | {section} |"
    return f"| `{name}` | {cut(says, WIDE - len(frame))} | {lines} | {section} |"


def subject_of(file):
    """The first sentence of the comment at the top of a file, and its section."""
    head = []
    for line in file.lines:
        if not line.startswith("--") or line.strip() == "--":
            break
        head.append(line)
    return sentence_and_section(comment_of(head))


def file_lines(top, number, file, definitions):
    """What the page has of a file: its subject, a row for each definition with a comment, and the
    others by name."""
    subject, section = subject_of(file)
    yield from ["", f"### {title_of(top, number, file)}", ""]
    yield from wrapped(f"{subject}{f' ({section})' if section else ''}.", WIDE)
    with_comment = [one for one in definitions if one.comment()]
    if with_comment:
        yield from ["", "| Definition | Says | Lines | Section |", "|---|---|---|---|", *map(row_of, with_comment)]
    others = [one for one in definitions if not one.comment()]
    if others:
        names = ", ".join(f"`{one.name}` {lines_of(one)}" for one in others)
        yield from ["", *(line.lstrip() for line in wrapped(f"{'Without a comment' if with_comment else 'All without a comment'}: {names}.", WIDE))]


def title_of(top, number, file):
    return f"{number}. {file.path.relative_to(top / 'crates')}"


def anchor_of(title):
    """The name by which a heading can be linked to, as a forge makes it."""
    return re.sub(r"[^\w\- ]", "", title.lower()).replace(" ", "-")


def index_of(files):
    """All names in alphabetical order, those of a letter in a paragraph, each with the numbers of
    its files."""
    found = {}
    for number, definitions in enumerate(files.values(), 1):
        for name in sorted({one.name for one in definitions}):
            found.setdefault(name, []).append(f"[{number}]")
    by_letter = {}
    for name in sorted(found, key=lambda name: (letter_of(name), name.lower(), name)):
        by_letter.setdefault(letter_of(name), []).append(f"`{name}` {' '.join(found[name])}")
    for letter, names in by_letter.items():
        yield ""
        yield from (line.lstrip() for line in wrapped(f"{letter}: {', '.join(names)}"))


def letter_of(name):
    return next((letter.upper() for letter in name if letter.isalpha()), "Signs")


def page(top, all_sources, reached):
    """The whole text of docs/DEFINITIONS.md."""
    files = reached.files()
    numbers = {file.module: number for number, file in enumerate(files, 1)}
    counts = {"definitions": f"{len(reached.definitions):,}", "lines": f"{reached.lines():,}", "files": len(files)}
    lines = [HEAD.format(**counts).rstrip("\n"), "", *words_of(all_sources, reached, numbers), "", "## By file"]
    for number, (file, definitions) in enumerate(files.items(), 1):
        lines += file_lines(top, number, file, sorted(definitions, key=lambda one: one.start))
    lines += [*INDEX.split("\n")[:-1], *index_of(files), ""]
    lines += [f"[{number}]: #{anchor_of(title_of(top, number, file))}" for number, file in enumerate(files, 1)]
    return "\n".join(lines) + "\n"
