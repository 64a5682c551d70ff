"""Puts the page's files, the planner's module and the examples into one file."""

import base64
import json
import re
from pathlib import Path

HERE = Path(__file__).resolve().parent.parent
SOURCE = HERE / "source"
EXAMPLES = HERE.parent / "examples"

# Each list in the order in which its files need one another. The worker's files are run in node
# too, by the checks.
WORKER = ["words", "planner", "lines", "reading", "places", "operators", "externals", "told", "rust_names", "cpp_types", "cpp_names", "names"]
WORKER += ["customs", "items", "contents", "origins", "sources", "comparing", "linking", "worker"]
PAGE = ["words", "asking", "parts", "paging", "memories", "tables", "contexts", "lists", "legend", "text", "dialogs", "answers", "imports", "comparison", "page"]


def script_of(names):
    """The files of a script, one after the other, as they may stand inside a page."""
    text = '"use strict";\n' + "\n".join((SOURCE / f"{name}.js").read_text() for name in names)
    if re.search(r"</script|<!--", text, re.I):
        raise ValueError("a script would end the element that it stands in")
    return text


def page_of(module, layout):
    """The page, as text. It holds all that it needs."""
    encoded = lambda data: base64.b64encode(data).decode()
    parts = {
        "STYLE": (SOURCE / "style.css").read_text().strip(),
        "LAYOUT": json.dumps(layout, separators=(",", ":")),
        "PLANNER": encoded(module),
        "LINKED": encoded((EXAMPLES / "linked.wasm").read_bytes()),
        "OVERLAP": encoded((EXAMPLES / "overlap.wasm").read_bytes()),
        "WORKER": script_of(WORKER).strip(),
        "SCRIPT": script_of(PAGE).strip(),
    }
    return re.sub(r"@([A-Z]+)@", lambda found: parts[found[1]], (SOURCE / "page.html").read_text())
