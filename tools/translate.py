"""What `./translate` does beyond starting a program: it compiles and proves the program, plans
several modules, and cleans up."""

import contextlib
import os
import re
import shutil
import signal
import subprocess
import sys
import tempfile
import time
from concurrent.futures import ThreadPoolExecutor, as_completed
from pathlib import Path

import program
from program import HERE, PROVED, TOOL

LOG = program.OUT / "prove.log"

# The statuses: no kit, no file or no program was found; and three that the program has too.
NO_PROGRAM = 7
WRONG_WORDS, READ_FAILED, WRITE_FAILED = 2, 3, 4
ENDS = ["a plan", "refused", "wrong words", "a read failed", "a write failed", "no memory", "the system did not give the words"]

# How a core module begins, and what else a file can be.
HEADER = b"\0asm\1\0\0\0"
BEGINS = "a module begins with the bytes 00 61 73 6d 01 00 00 00"

# What a proof takes of disk and of memory at least, and with ease, in bytes.
GIGA = 1 << 30
LEAST_DISK, MUCH_DISK, MUCH_MEMORY = 3 * GIGA, 10 * GIGA, 8 * GIGA

# For the time that is left: a crate counts its lines of code and as many more, and a line takes
# this long until some are proved.
LINES_A_CRATE = 100
SECONDS_A_LINE = 0.35


def say(message):
    print(f"translate: {message}", file=sys.stderr, flush=True)


def fail(message):
    say(message)
    sys.exit(NO_PROGRAM)


def hint(source):
    """What is wrong with a file that is certainly no core module, by its first bytes; else nothing.
    Leaves the file at its begin."""
    first = source.read(len(HEADER))
    source.seek(0)
    if first == HEADER:
        return ""
    if not first:
        return f"is empty; {BEGINS}"
    if first[:4] != HEADER[:4]:
        is_text = first[:1] in b"( \t\r\n" or first[:2] == b";;"
        return "looks like text; make a binary module of it first: wat2wasm" if is_text else f"is no WebAssembly module; {BEGINS}"
    if len(first) < len(HEADER):
        return f"ends within its header; {BEGINS}"
    is_component = first[6:] == b"\1\0"
    return "is a component; take a core module out of it first: wasm-tools component unbundle" if is_component else f"has another version; {BEGINS}"


def needed_crates(top=TOOL):
    """The crates of the repository that this one depends on, and itself, each with those that it names."""
    below = {}
    for line in (HERE / "crates.txt").read_text().splitlines():
        name, colon, libraries = line.partition("#")[0].partition(":")
        if colon:
            below[name.split()[0]] = libraries.split()
    needed, wanted = {}, [top]
    while wanted:
        name = wanted.pop()
        if name not in needed:
            needed[name] = [library for library in below[name] if library in below]
            wanted += needed[name]
    return needed


@contextlib.contextmanager
def started(command, **how):
    """Starts a command that ends at the latest with this block, however that ends."""
    # It has a session of its own, so that an interrupt reaches this script alone.
    child = subprocess.Popen(command, start_new_session=True, **how)
    try:
        yield child
    finally:
        if child.poll() is None:
            child.terminate()
        child.wait()


class Progress:
    """Says on standard error how far the proofs are: in place on a terminal, else a line a crate."""

    def __init__(self, needed, copy):
        self.needed, self.begun, self.done, self.took = needed, {}, [], {}
        self.marks = {name: mark_of(copy / "crates" / name) for name in needed}
        self.lines = {name: LINES_A_CRATE + lines_of(name) for name in needed}
        jobs = os.environ.get("RT_JOBS", "")
        self.processors = int(jobs) if jobs.isdigit() else len(os.sched_getaffinity(0))
        self.start = time.monotonic()
        self.in_place = sys.stderr.isatty()

    def look(self):
        for name, mark in self.marks.items():
            if name not in self.begun and mark.is_dir():
                self.begun[name] = time.monotonic()
        if self.in_place:
            print(f"\r\033[K{self.line()}", end="", file=sys.stderr, flush=True)

    def end(self, name, is_kept):
        self.done.append(name)
        if not is_kept:
            self.took[name] = time.monotonic() - self.begun.get(name, time.monotonic())
        if not self.in_place:
            print(f"{name} {'was proved before' if is_kept else 'is proved'}: {self.line()}", file=sys.stderr, flush=True)

    def seconds_left(self):
        """The work that is left shared by all processors, or the longest chain of crates that is
        left, at the speed so far."""
        lines = sum(self.lines[name] for name in self.took)
        pace = (1000 * SECONDS_A_LINE + sum(self.took.values())) / (1000 + lines)
        now, left, chains = time.monotonic(), {}, {}
        for name in self.needed:
            spent = now - self.begun.get(name, now)
            left[name] = 0 if name in self.done else max(self.lines[name] * pace - spent, 0)

        def chain(name):
            if name not in chains:
                chains[name] = left[name] + max(map(chain, self.needed[name]), default=0)
            return chains[name]

        return max(sum(left.values()) / self.processors, *map(chain, self.needed))

    def line(self):
        now = [name for name in self.begun if name not in self.done]
        so_far, left = (round(seconds / 60) for seconds in (time.monotonic() - self.start, self.seconds_left()))
        text = f"{len(self.done)} of {len(self.needed)} crates, {so_far} min so far, about {left} min left"
        text += f"; now {', '.join(now)}" if now else ""
        return text[: shutil.get_terminal_size().columns - 1] if self.in_place else text

    def close(self):
        if self.in_place:
            print("\r\033[K", end="", file=sys.stderr, flush=True)


def mark_of(folder):
    """The folder that rt makes where it begins a crate."""
    return folder / "out" if (folder / "src" / "main.rt").exists() else folder / "out" / "rlib"


def lines_of(name):
    return sum(file.read_bytes().count(b"\n") for file in (HERE / "crates" / name / "src").rglob("*.rt"))


def copy_crates(needed, to):
    """Copies these crates, without the edits that must fail, as a repository of their own."""
    for name in needed:
        shutil.copytree(HERE / "crates" / name, to / "crates" / name, ignore=shutil.ignore_patterns("out", "must-fail"))
    lines = (HERE / "crates.txt").read_text().splitlines(keepends=True)
    (to / "crates.txt").write_text("".join(line for line in lines if line.partition(":")[0].strip() in needed))
    shutil.copyfile(HERE / "HANDLES", to / "HANDLES")
    (to / ".git").mkdir()


def prove_crates(room, needed, top):
    """Proves the crates of the copy in this folder, and returns once the top one is proved and built."""
    LOG.parent.mkdir(parents=True, exist_ok=True)
    progress = Progress(needed, room / "copy")
    how = {"cwd": room / "copy", "stdin": subprocess.DEVNULL, "env": {**os.environ, "TMPDIR": str(room / "tmp")}}
    with open(LOG, "wb") as log, contextlib.closing(progress):
        with started(["rt", "ci"], stdout=log, stderr=subprocess.STDOUT, **how) as child:
            while top not in progress.done:
                has_ended = child.poll() is not None
                for name, word in ended_crates():
                    if word.startswith("NOT"):
                        progress.close()
                        fail(f"{name} is not proved; see {LOG.relative_to(HERE)}")
                    if name not in progress.done:
                        progress.end(name, word != "proved")
                if has_ended and top not in progress.done:
                    progress.close()
                    fail(f"the proofs ended early; see {LOG.relative_to(HERE)}")
                progress.look()
                time.sleep(1)


def ended_crates():
    """The crates that ended so far, each with how: rt prints one such line for each."""
    return re.findall(r"^rt: (\w+) (proved|is kept: |NOT PROVED).*\n", LOG.read_text(errors="replace"), re.M)


def say_what_is_short():
    """Says where the disk or the memory is short, and ends where the disk does not hold a proof."""
    temporary = Path(tempfile.gettempdir())
    disk = shutil.disk_usage(temporary).free
    if disk < LEAST_DISK:
        fail(f"proving takes 5 to 10 GB of disk, and {temporary} has {disk / GIGA:.1f}: free some (./translate --clean), or set TMPDIR to another folder")
    if disk < MUCH_DISK:
        say(f"low disk space: {temporary} has {disk / GIGA:.1f} GB, and proving takes 5 to 10")
    kept = kept_by_kit()
    beside = shutil.disk_usage(kept.parent).free
    if beside < LEAST_DISK + GIGA * 2:
        say(f"low disk space: the kit's disk has {beside / GIGA:.1f} GB, and below 5 it keeps no proof")
    memory = re.search(r"^MemAvailable: +([0-9]+) kB", read_text("/proc/meminfo"), re.M)
    if memory and int(memory[1]) * 1024 < MUCH_MEMORY:
        say(f"low memory: {int(memory[1]) / (1 << 20):.1f} GB are free, and proving takes 5 to 10 on four processors; RT_JOBS=1 takes the least")


def read_text(file):
    try:
        return Path(file).read_text()
    except OSError:
        return ""


def kept_by_kit():
    """Where the kit keeps what `rt ci` proved, for all folders of this machine."""
    return program.kit().parent / "rattle-kept"


def prove(top=TOOL):
    """Proves the crates that the program depends on and builds it, from a copy, so that other
    commands need not wait."""
    if not shutil.which("rt"):
        fail("the command rt of the Rattle kit is not on the PATH")
    say_what_is_short()
    needed = needed_crates(top)
    with program.new_folder("translate-") as room:
        for folder in (room, room / "copy", room / "tmp"):
            folder.mkdir(exist_ok=True)
            # The kit runs a program as nobody, who must reach it.
            folder.chmod(0o711)
        digest = program.sources()
        copy_crates(needed, room / "copy")
        if program.sources() != digest:
            fail("the sources changed while they were copied; run it again")
        prove_crates(room, needed, top)
        if top == TOOL:
            program.install(room / "copy" / PROVED.relative_to(HERE), PROVED, digest)


def is_proved_here():
    """Whether the program that was proved here is of these sources."""
    return PROVED.exists() and read_text(PROVED.parent / "SHA256") == f"# sources {program.sources()}\n{program.sum_of(PROVED)}  {TOOL}\n"


def prove_once():
    """Proves and builds the program where that is not done, and says whether it is what is handed out."""
    if not is_proved_here():
        prove()
    handed_out = HERE / "dist" / "translate"
    same = handed_out.exists() and handed_out.read_bytes() == PROVED.read_bytes()
    say(f"the program is proved and built{'; it has the bytes of dist/translate' if same else ''}")


def proofs_kept_by_kit():
    """The folders in which the kit keeps the proofs of this repository's crates, of whatever folder
    and state of it."""
    names = {name.strip() for name, colon, _ in (line.partition(":") for line in (HERE / "crates.txt").read_text().splitlines()) if colon}
    names = {name.split()[0] for name in names if not name.startswith("#")}
    found = [(re.fullmatch(r"(?:proof|tests)-(\w+)-[0-9a-f]{64}", folder.name), folder) for folder in kept_by_kit().glob("*-*")]
    return [folder for parts, folder in found if parts and parts[1] in names]


def bytes_below(folders):
    return sum(file.stat().st_size for folder in folders for file in folder.rglob("*") if file.is_file() and not file.is_symlink())


def clean(takes_all):
    """Removes what was made here; with all, also the proofs that the kit keeps, whose size is said
    otherwise."""
    for folder in sorted((HERE / "crates").glob("*/out")):
        shutil.rmtree(folder, ignore_errors=True)
    say("removed what was made in crates/*/out")
    kept = proofs_kept_by_kit() if shutil.which("rt") else []
    size = f"{bytes_below(kept) / GIGA:.1f} GB of proofs of these crates"
    if kept and not takes_all:
        say(f"in {kept_by_kit()} the kit keeps {size}, for all folders of this machine; --clean=all removes them")
    if takes_all:
        for folder in kept:
            shutil.rmtree(folder, ignore_errors=True)
        say(f"removed {size}, in {kept_by_kit()}" if kept else "the kit keeps no proofs of these crates")


def opened_text(to):
    """The file that a text goes to, else one without a name."""
    if not to:
        return tempfile.TemporaryFile()
    to.parent.mkdir(parents=True, exist_ok=True)
    return open(to, "w+b")


class Modules:
    """Several modules, each planned in a process of its own."""

    def __init__(self, words):
        self.out, self.options, self.named, words = None, [], [], iter(words)
        for word in words:
            if word == "--out" or word.startswith("--out="):
                self.out = Path(word[len("--out=") :] if "=" in word else next(words, ""))
            else:
                (self.options if word.startswith("--") else self.named).append(word)
        self.files = {}
        for word in self.named:
            self.take(Path(word))
        self.done, self.begun, self.in_place = 0, time.monotonic(), sys.stderr.isatty()

    def take(self, named):
        """Notes each file with the place of its text."""
        found = sorted(named.rglob("*.wasm")) if named.is_dir() else [named]
        for file in found:
            to = Path(f"{file.relative_to(named) if named.is_dir() else file.name}.txt")
            if self.out and file not in self.files and to in self.files.values():
                say(f"two modules would have the text {self.out / to}: plan their folders in two calls")
                sys.exit(WRONG_WORDS)
            self.files[file] = to

    def plan(self, made, file):
        """Plans a module. Returns its status, its time and what is said of it."""
        begun, to = time.monotonic(), self.out / self.files[file] if self.out else None
        try:
            source = open(file, "rb", buffering=0)
        except OSError as error:
            return READ_FAILED, 0, f"cannot be read: {error.strerror}"
        with source, contextlib.ExitStack() as opened:
            why = hint(source) if source.seekable() else ""
            try:
                text = opened.enter_context(opened_text(to))
            except OSError as error:
                return WRITE_FAILED, 0, f"{to} cannot be written: {error.strerror}"
            ended = subprocess.run([made, "plan", *self.options], stdin=source, stdout=text, stderr=subprocess.PIPE)
            took, status = time.monotonic() - begun, ended.returncode
            text.seek(0)
            line = text.readline(200) if status == 1 else ended.stderr.partition(b"\n")[0]
        if to and status not in (0, 1):
            to.unlink(missing_ok=True)
        if status == 1 and why:
            return status, took, f"{line.decode(errors='replace').strip()}: the file {why}"
        return status, took, line.decode(errors="replace").strip() or (ENDS[status] if 0 <= status < len(ENDS) else f"ended by signal {-status}")

    def show(self, line):
        """Prints a line, and on a terminal below it how far this is."""
        if not self.in_place:
            return print(line, file=sys.stderr, flush=True)
        left = (time.monotonic() - self.begun) / self.done * (len(self.files) - self.done)
        far = f"{self.done} of {len(self.files)} modules, about {left:.0f} s left" if self.done < len(self.files) else ""
        print(f"\r\033[K{line}\n{far}", end="", file=sys.stderr, flush=True)

    def kept(self):
        """Where the texts are, for the last line."""
        return f"; the texts are in {self.out}" if self.out else "; --out FOLDER keeps the texts"

    def run(self):
        """Plans all, and returns the status."""
        made, statuses = found_program(), []
        with ThreadPoolExecutor(len(os.sched_getaffinity(0))) as pool:
            asked = {pool.submit(self.plan, made, file): file for file in self.files}
            try:
                for it in as_completed(asked):
                    status, took, said = it.result()
                    self.done += 1
                    statuses.append(status)
                    self.show(f"{status}  {took * 1000:6.0f} ms  {asked[it]}: {said}")
            finally:
                pool.shutdown(cancel_futures=True)
        counted = ", ".join(f"{statuses.count(status)} {name}" for status, name in ((0, "planned"), (1, "refused")))
        others = sum(status not in (0, 1) for status in statuses)
        say(f"{len(statuses)} module{'s' * (len(statuses) != 1)} in {time.monotonic() - self.begun:.1f} s: {counted}, {others} without an answer{self.kept()}")
        return max((status if status >= 0 else NO_PROGRAM for status in statuses), default=0)


def several(words):
    """Plans several modules, or the modules of folders."""
    modules = Modules(words)
    if not modules.named or "-" in modules.named or modules.out == Path(""):
        say("give the files and folders of several modules by their names, and a folder after --out")
        sys.exit(WRONG_WORDS)
    if not modules.files:
        fail(f"no file below {' or '.join(modules.named)} ends in .wasm")
    sys.exit(modules.run())


def found_program():
    """The program to run. Standard error says in a line where it is not proved."""
    made = program.built()
    if made == program.UNPROVED:
        say("this program is compiled from these sources without proofs; ./translate --prove proves and builds it")
    return made or program.compile_kept()


def single(words):
    """Compiles the program, which is not there, and runs it."""
    makes = words[0] == "generate"
    try:
        source = None if makes else open(0 if words[0] == "-" else words[0], "rb")
    except OSError as error:
        fail(f"cannot read {words[0]}: {error.strerror}")
    made = found_program()
    if source:
        os.dup2(source.fileno(), 0)
    os.execv(made, [str(made), *(words if makes else ["plan", *words[1:]])])


def main(words):
    program.start()
    if words[0] == "--prove" or words[0].startswith("--clean"):
        if words[1:] or words[0] not in ("--prove", "--clean", "--clean=all"):
            say("--prove, --clean and --clean=all take no other word")
            sys.exit(WRONG_WORDS)
        return prove_once() if words[0] == "--prove" else clean(words[0] == "--clean=all")
    names = [word for word in words if not word.startswith("--")]
    takes_several = words[0] != "generate" and (len(names) > 1 or any(word.startswith("--out") for word in words) or any(map(os.path.isdir, names)))
    return several(words) if takes_several else single(words)


if __name__ == "__main__":
    try:
        main(sys.argv[1:])
    except program.NoProgram as error:
        fail(str(error))
