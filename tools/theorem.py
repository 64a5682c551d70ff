"""Writes docs/THEOREM.md from the sources: the sentence, the contract of `run`, and the definitions
that say what it means."""

import closure

RUN = ("crates/translate/src/running.rt", "run")

# The definitions on the way, in the order of reading.
ON_THE_WAY = [
    ("translate", "IsSuccess"),
    ("translate", "IsPlanned"),
    ("translate", "IsPlanOf"),
    ("translate", "IsInitialised"),
    ("init_plan", "AgreesInAll"),
    ("replay_spec", "SamePhase"),
    ("replay_spec", "content_of"),
    ("replay_spec", "trap_of"),
    ("replay_spec", "IsStatic"),
    ("replay_spec", "TakesPrefix"),
    ("translate", "IsRefusal"),
    ("translate", "IsRefused"),
    ("translate", "HasCause"),
    ("translate", "IsValid"),
]

HEAD = """\
# The theorem

`tools/audit --write` writes this page from the sources. `tools/audit` fails where the page differs from them.
It has the sentence, the contract that says it, and the main definitions on the way from the one to the other, each whole.
[PROVED](PROVED.md) says which clause carries which words. [DEFINITIONS](DEFINITIONS.md) lists those it depends on.

## The sentence
"""

CONTRACT = """\
## The contract of `run`

From `{path}`. `old` is the value at entry, `new` the value at the end. The six statuses are 0 success,
1 refused, 2 wrong words, 3 a read failed, 4 a write failed, 5 out of memory. These clauses depend on {definitions}
definitions: {lines} lines in {files} files.
"""

DEFINITIONS = """\
## The definitions

Each is text of the repository as the prover reads it. A record holds where all its fields hold. `×` is and, `⊎` is
or, `≡` equals, `(x : A) → P` for all, `(x : A) × P` for some. A field that is a value, as `meaning`, says that there
is one.
"""

LAST = """\
## Premises

- The source shows the bytes that it has left, and the sink those that it holds, as the devices in memory do. A
  device may show nothing (`None`), as the two of the program. Then the same clauses hold of the bytes of the report
  and of the counts of faults. They say nothing of what was read from or written to the device.
- Imported memories are distinct objects, and so are imported tables.
- Each phase is replayed by itself, from equal values of globals.

## What is not said

- That an allocation succeeds: no clause rules out `OutOfMemory`, status 5.
- Time, stack and memory of a run: no clause bounds them. `costs_law` bounds the size of a plan.
- That a plan is the one that the Rust crate makes: no build of it was run.
- That each module which the standard accepts has a plan: what is not supported or too large has none.
- Bodies of functions: their code is not read. The core specification asks more than the ten listed rules, of bodies
  and otherwise. That is not checked: for example, that references fit by subtyping, and that a type fits its
  supertype.

We trust the toolchain, the C library, these definitions, `main` with its two adapters, and `tools/built`, which finds
a program for `./translate` by the digest of its sources.
"""


def headline(top):
    """The quote of the README, as one sentence."""
    lines = (top / "README.md").read_text().split("\n")
    return "\n".join(line for line in lines if line.startswith(">"))


def crate_of(module):
    return module.split(".")[1]


def goes_on(all_sources, definition):
    """Where a definition goes deeper: what it cites in other files, by crate and file."""
    crates = {}
    for module, name in sorted(closure.cited(definition.file, *closure.statement_of(definition))):
        if module in all_sources.files and name != definition.name:
            crates.setdefault(crate_of(module), {}).setdefault(module.split(".specs.")[1], []).append(f"`{name}`")
    rows = []
    for crate, files in crates.items():
        rows.append(f"`{crate}`: " + ", ".join(f"{file} ({', '.join(names)})" for file, names in files.items()))
    return f"Goes on in {'; '.join(rows)}." if rows else "Goes no deeper."


def section_of(all_sources, definition):
    """A definition whole, under its name, with its comment, its block and its file."""
    path = f"crates/{crate_of(definition.file.module)}/specs/{definition.file.path.name}"
    text = "\n".join([*definition.blocks(), *definition.comment(), *definition.lines()])
    return f"### `{definition.name}`, {path}\n\n```\n{text}\n```\n{goes_on(all_sources, definition)}\n"


def page(top, all_sources):
    """The whole text of docs/THEOREM.md."""
    path, function = RUN
    contract = closure.Contract(top / path, function)
    reached = closure.Closure(all_sources, closure.cited(contract, contract.text()), closure.FOLLOWS)
    counts = {"definitions": f"{len(reached.definitions):,}", "lines": f"{reached.lines():,}", "files": len(reached.files())}
    clauses = "\n".join(contract.lines)
    parts = [HEAD, headline(top), "", CONTRACT.format(path=path, **counts), f"```rust\n{clauses}\n```\n", DEFINITIONS]
    parts += [section_of(all_sources, all_sources.find(crate, name)) for crate, name in ON_THE_WAY]
    return "\n".join([*parts, LAST])
