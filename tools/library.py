"""The static library of the C interface, proved and built over the libraries that `rt ci` (or `rt
lib` in each crate) left in crates/*/out/rlib."""

import subprocess
from pathlib import Path

ROOT = Path(__file__).resolve().parent.parent
CRATE = "planner_c"


class NotBuilt(Exception):
    """What is needed is not there, or a step failed."""


class NotLeft(NotBuilt):
    """A library that the static library stands on was not left."""


def kit():
    """The folder of the Rattle kit."""
    try:
        page = subprocess.run(["rt", "doc"], stdout=subprocess.PIPE, check=True, text=True).stdout
    except (OSError, subprocess.CalledProcessError) as error:
        raise NotBuilt("the command rt of the Rattle kit is not on the PATH") from error
    return Path(page.strip()).parent


def run(*words, **how):
    """Runs a command, whose output is shown only where it fails."""
    done = subprocess.run([*map(str, words)], stdin=subprocess.DEVNULL, stdout=subprocess.PIPE, stderr=subprocess.STDOUT, text=True, **how)
    if done.returncode:
        raise NotBuilt(f"{words[0]} failed with status {done.returncode}:\n{done.stdout[-4000:]}")
    return done.stdout


def crates_below():
    """The crates of the repository that the static library stands on, lowest first, those that it
    names, and the kit's libraries that it names."""
    named = {}
    for line in (ROOT / "crates.txt").read_text().splitlines():
        name, colon, words = line.partition("#")[0].partition(":")
        if colon:
            named[name.split()[0]] = words.split()
    below = []

    def visit(name):
        for library in named[name]:
            if library in named and library not in below:
                visit(library)
                below.append(library)

    if CRATE not in named:
        raise NotBuilt(f"crates.txt has no {CRATE}")
    visit(CRATE)
    return below, [name for name in named[CRATE] if name in named], [name for name in named[CRATE] if name not in named]


def rlib(name):
    return ROOT / "crates" / name / "out" / "rlib" / f"{name}.rlib"


def build_words(toolchain, archive):
    """The command that proves the static library over the statements of the libraries below it, and
    builds it for x86-64."""
    below, named, of_kit = crates_below()
    lacking = [name for name in below if not rlib(name).exists()]
    if lacking:
        raise NotLeft(f"not left in crates/*/out/rlib: {' '.join(lacking)}; `rt ci`, or `rt lib` in crates/{CRATE}, proves what is below it first")
    words = [kit() / "bin" / "rattle", "build", "--crate-name", CRATE, "src/lib.rt"]
    for name in ["std", *of_kit]:
        words += ["--extern", f"{name}={kit()}/rlibs/{name}.rlib"]
    words += ["-L", f"dependency={kit()}/rlibs"]
    for name in named:
        words += ["--extern", f"{name}={rlib(name)}"]
    for name in below:
        words += ["-L", f"dependency={rlib(name).parent}"]
    words += ["--antt-project", kit() / "rattle" / "logic" / "antt-project.json", "--logic-built", kit() / "logic_built", "--jobs", "2"]
    return [*words, "--links", f"{CRATE}=", "--crate-type", "staticlib", "--toolchain", toolchain, "--incremental", "out/incremental", "-o", archive]


def keeping(folder, kept, *options):
    """A copy of the kit's toolchain whose clang also keeps LLVM's module that it is handed, and
    takes these options last."""
    tools = folder / "toolchain"
    (tools / "bin").mkdir(parents=True)
    (tools / "lib").symlink_to(kit() / "toolchain" / "lib")
    for tool in (kit() / "toolchain" / "bin").iterdir():
        if tool.name != "clang":
            (tools / "bin" / tool.name).symlink_to(tool)
    clang = tools / "bin" / "clang"
    more = "".join(f" {option}" for option in options)
    clang.write_text(f'#!/bin/sh\nfor word in "$@"; do case "$word" in *.bc) cp "$word" {kept};; esac; done\nexec {kit()}/toolchain/bin/clang "$@"{more}\n')
    clang.chmod(0o755)
    return tools


def prove(archive, folder, kept=None, *options):
    """Proves the static library and builds it, and keeps LLVM's module of it where that is asked for."""
    crate = ROOT / "crates" / CRATE
    (crate / "out").mkdir(exist_ok=True)
    said = run(*build_words(keeping(folder, kept, *options) if kept else kit() / "toolchain", archive), cwd=crate)
    if "logic=proved" not in said or kept and not kept.exists():
        raise NotBuilt(f"{CRATE} is not proved:\n{said[-4000:]}")
    print(*[line for line in said.splitlines() if line.startswith(("logic=", "axioms"))], sep="\n", flush=True)


def add_heap(archive, folder):
    """Adds the three functions of the kit's heap, so that a C linker needs this one file. The kit's
    archiver writes neither names of users nor times."""
    archiver = kit() / "toolchain" / "bin" / "llvm-ar"
    run(archiver, "x", kit() / "c" / "liblibc_c.a", cwd=folder)
    heap = sorted(folder.glob("heap*.o"))
    if not heap:
        raise NotBuilt("the kit's liblibc_c.a has no heap")
    run(archiver, "rcsD", archive, *heap)
