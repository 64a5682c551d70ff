"""The program that the tools beside this file run: proved and built, or compiled without proofs,
which is kept until the sources change."""

import contextlib
import hashlib
import os
import shutil
import signal
import subprocess
import sys
import tempfile
import time
from pathlib import Path

HERE = Path(__file__).resolve().parent.parent
TOOL = "translate_tool"
OUT = HERE / "crates" / TOOL / "out"
# What is proved here, and what is compiled here without proofs; beside each stands SHA256, as
# beside dist/translate.
PROVED, UNPROVED = OUT / TOOL, OUT / "unproved" / TOOL
TARGET = "x86_64-unknown-linux-gnu"

ABOUT = """\
Runs dist/translate where it is built from the sources of this folder, else the program that `./translate --prove`
built of them. Else compiles it without proofs, which takes one to three minutes on a machine without other work,
and keeps that until the sources change."""

ENVIRONMENT = {"PATH": "/usr/local/bin:/usr/bin:/bin", "LANG": "C.UTF-8"}


class NoProgram(Exception):
    """There is no program to run."""


def add_option(parser):
    parser.add_argument("--program", metavar="FILE", help="runs this program in place of that of the repository")


def start():
    """Prepares a tool: no caches of Python, and a signal ends it as an error does, so that folders
    are removed."""
    for number in (signal.SIGINT, signal.SIGTERM, signal.SIGHUP):
        signal.signal(number, lambda number, _: sys.exit(128 + number))


@contextlib.contextmanager
def new_folder(prefix):
    folder = Path(tempfile.mkdtemp(prefix=prefix))
    try:
        yield folder
    finally:
        shutil.rmtree(folder, ignore_errors=True)


def sources(*words):
    """The digest of the sources (tools/sources)."""
    return told(HERE / "tools" / "sources", *words)


def built():
    """The file of a program that is built from these sources, or none (tools/built)."""
    done = subprocess.run([HERE / "tools" / "built"], stdout=subprocess.PIPE, text=True)
    return None if done.returncode else HERE / done.stdout.strip()


def sum_of(file):
    return hashlib.sha256(file.read_bytes()).hexdigest()


def note(made, digest):
    """Notes beside a program of which sources it is built."""
    (made.parent / "SHA256").write_text(f"# sources {digest}\n{sum_of(made)}  {made.name}\n")


def install(made, to, digest):
    """Puts a program in its place, with the digest of its sources."""
    to.parent.mkdir(parents=True, exist_ok=True)
    new = to.with_suffix(".new")
    shutil.copyfile(made, new)
    new.chmod(0o755)
    new.replace(to)
    note(to, digest)


def find(given=None):
    """The program to run: the given one, else one that is built from these sources, else one that
    is compiled without proofs and kept."""
    if given:
        if not os.access(given, os.X_OK):
            raise NoProgram(f"{given} cannot be run")
        return Path(given).resolve()
    return built() or compile_kept()


def compile_kept():
    """Compiles the program without proofs and keeps it until the sources change."""
    with new_folder("translate-") as room:
        before = sources()
        made = compile_crate(HERE / "crates" / TOOL, room)
        if sources() != before:
            raise NoProgram("the sources changed while they were compiled; run it again")
        install(made, UNPROVED, before)
    return UNPROVED


def kit():
    """The folder of the Rattle kit."""
    command = shutil.which("rt")
    if not command:
        raise NoProgram("no program is built from these sources, and the command rt of the Rattle kit is not on the PATH")
    return Path(command).resolve().parent.parent


def compile_crate(crate, room):
    """Compiles the program of a crate without its proofs into the folder."""
    print(f"{crate.name} is compiled without proofs, which takes some minutes", file=sys.stderr, flush=True)
    code = room / f"{crate.name}.bc"
    take_code(crate, room, code)
    made = room / crate.name
    compile_code(["-x", "ir", code], made.with_suffix(".o"))
    link(made)
    return made


def link(made):
    """Links a program of its object file, which stands beside it."""
    libraries = [kit() / "c" / name for name in ("libos_c.a", "liblibc_c.a")]
    run_quietly(
        [kit() / "bin" / "rattle-link", "--target", TARGET, "--toolchain", kit() / "toolchain", "-o", made, made.with_suffix(".o"), *libraries]
    )
    made.chmod(0o755)


def take_code(crate, room, to):
    """Takes the code of the whole program from a run of `rt try`, which hands it to its compiler as
    a file, and ends that run."""
    folder = room / "try"
    folder.mkdir(exist_ok=True)
    how = {"cwd": crate, "env": {**os.environ, "TMPDIR": str(folder)}, "stdin": subprocess.DEVNULL, "stdout": subprocess.DEVNULL}
    with open(room / "said", "w+b") as said:
        try:
            child = subprocess.Popen(["rt", "try"], start_new_session=True, stderr=said, **how)
        except FileNotFoundError as error:
            raise NoProgram("the command rt of the Rattle kit must be on the PATH") from error
        try:
            while not (found := handed_over(folder)):
                if child.poll() is not None:
                    said.seek(0)
                    raise NoProgram(f"rt try of {crate.name} handed over no code:\n{said.read().decode(errors='replace')}")
                time.sleep(0.05)
            shutil.copyfile(found, to)
        finally:
            if child.poll() is None:
                child.terminate()
            child.wait()


def handed_over(folder):
    """The code that a compiler has begun to read. What comes before it is a trial of a few bytes."""
    for code in folder.glob("*/*/module.bc"):
        if code.stat().st_size > 1 << 16 and list(code.parent.glob("module*.o*")):
            return code
    return None


def compile_code(code, to, *options):
    """Compiles code with the kit's compiler."""
    run_quietly([kit() / "toolchain" / "bin" / "clang", f"--target={TARGET}", "-O2", "-c", *options, *code, "-fPIE", "-o", to])


def compile_library(code, to):
    """Compiles a library of C, which names no header, for a program to be started with."""
    source = to.with_suffix(".c")
    source.write_text(code)
    compile_code([source], to.with_suffix(".o"), "-fPIC")
    run_quietly([kit() / "toolchain" / "bin" / "ld.lld", "-shared", "-o", to, to.with_suffix(".o")])
    return to


def told(*words):
    """What a command prints, without spaces around it."""
    return subprocess.run(list(map(str, words)), stdout=subprocess.PIPE, check=True, text=True).stdout.strip()


def run_quietly(words):
    """Runs a command, whose words are shown only where it fails."""
    done = subprocess.run(list(map(str, words)), stdin=subprocess.DEVNULL, stdout=subprocess.PIPE, stderr=subprocess.STDOUT)
    if done.returncode:
        raise NoProgram(f"{words[0]} failed:\n{done.stdout.decode(errors='replace')}")
