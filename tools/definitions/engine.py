"""The engine, node's or a Chromium's: it is asked what it takes, what an instance holds and what links."""

import html
import json
import re
import subprocess
import tempfile
from pathlib import Path

import spelling

HERE = Path(__file__).resolve().parent
BROWSER = ["--headless=new", "--no-sandbox", "--disable-gpu", "--no-first-run", "--disable-background-networking", "--dump-dom"]
# Switches of node for what is newer than it; those that it does not know are left out.
SWITCHES = ["--experimental-wasm-gc", "--wasm-final-types", "--experimental-wasm-typed-funcref"]
PLAIN = ["--experimental-wasm-extended-const", "--experimental-wasm-memory64"]


def type_probe(types):
    """A module with a group, a final type and a mutable global of one of its types."""
    group = types.members([("final", ("function", [], [])), ("open", ("struct", []))])
    value = types.value((True, 0))
    return spelling.HEADER + spelling.section(1, spelling.vector([group])) + spelling.section(6, b"\1" + value + b"\1\xd0\0\x0b")


PROBES = {
    "standard types": type_probe(spelling.STANDARD),
    "older types": type_probe(spelling.OLDER),
    "several memories": spelling.HEADER + b"\5\5\2\0\1\0\1",
    "wide memories": spelling.HEADER + b"\5\3\1\4\1",
    "wide tables": spelling.HEADER + b"\4\4\1\x70\4\1",
    "initialised tables": spelling.HEADER + b"\1\4\1\x60\0\0\3\2\1\0\4\x09\1\x40\0\x70\0\1\xd2\0\x0b\x0a\4\1\2\0\x0b",
    "own globals": spelling.HEADER + b"\6\x0b\2\x7f\0\x41\1\x0b\x7f\0\x23\0\x0b",
    "sums": spelling.HEADER + b"\6\x09\1\x7f\0\x41\1\x41\2\x6a\x0b",
}


class NoEngine(Exception):
    """There is no engine to compare with."""


def told_by(*words):
    """What a command prints; it must end well."""
    try:
        return subprocess.run(words, stdin=subprocess.DEVNULL, capture_output=True, text=True, check=True).stdout
    except (OSError, subprocess.CalledProcessError) as error:
        raise NoEngine(f"{words[0]}: {error}") from error


class Engine:
    """A program of node, or of a Chromium, which tells its version otherwise."""

    def __init__(self, program):
        self.program = program
        self.version = told_by(program, "--version").strip()
        self.is_node = re.match(r"v\d", self.version) is not None
        known = told_by(program, "--v8-options") if self.is_node else ""
        self.plain, self.switches = ([word for word in words if f" {word} " in known] for words in (PLAIN, PLAIN + SWITCHES))
        self.has, self.has_plainly = self.probed(newer=True), self.probed(newer=False)

    def __str__(self):
        return f"engine: {'node ' if self.is_node else ''}{self.version}, with {', '.join(name for name, there in self.has.items() if there)}"

    def probed(self, newer):
        asked = [{"take": data.hex()} for data in PROBES.values()]
        return {name: answer["taken"] for name, answer in zip(PROBES, self.ask(asked, newer))}

    def types(self):
        """How the engine spells types with references to them, or None where it has none."""
        if self.has["standard types"]:
            return spelling.STANDARD
        return spelling.OLDER if self.has["older types"] else None

    def ask(self, questions, newer=False):
        """The answers to questions, in order; with node's switches for newer types where they are
        asked for."""
        if not self.is_node:
            return self.ask_in_a_page(questions)
        words = [self.program, *(self.switches if newer else self.plain), str(HERE / "engine.mjs")]
        done = subprocess.run(words, input=json.dumps(questions), capture_output=True, text=True, check=False)
        if done.returncode:
            raise NoEngine(done.stderr[-2000:])
        return json.loads(done.stdout)

    def ask_in_a_page(self, questions):
        """The same by a page that a browser without a window shows, and whose text it prints."""
        script = (HERE / "answers.mjs").read_text().replace("export function", "function")
        asked = json.dumps(questions).replace("<", "\\u003c")
        shows = "document.getElementById('said').textContent = JSON.stringify(QUESTIONS.map(answer));"
        with tempfile.TemporaryDirectory(prefix="engine-") as folder:
            page = Path(folder) / "page.html"
            page.write_text(f'<!doctype html><pre id="said"></pre><script>const QUESTIONS = {asked};\n{script}\n{shows}</script>')
            said = told_by(self.program, *BROWSER, f"--user-data-dir={folder}/profile", page.as_uri())
        found = re.search(r'<pre id="said">(.*?)</pre>', said, re.S)
        if not found or not found.group(1):
            raise NoEngine(f"{self.program} shows no answers")
        return json.loads(html.unescape(found.group(1)))
