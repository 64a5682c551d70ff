"""The planner as a WebAssembly module of its own, for 64-bit memories.

The kit does not build a crate that allocates for WebAssembly. So the static library is built for
x86-64, which proves it: `rattle build` proves the crate over the libraries below it and hands
LLVM's module of it to the clang of its toolchain folder. That folder is a copy here, whose clang
also keeps the module. The two targets have pointers of one size and one order of bytes, so the
module is compiled for wasm64 in its place, by the kit's own clang, with the heap beside it.
"""

import re
import sys
from pathlib import Path

HERE = Path(__file__).resolve().parent.parent
sys.path.insert(0, str(HERE.parent / "tools"))
import library  # noqa: E402
from library import NotBuilt, kit, run  # noqa: E402, F401

LAYOUT = "e-m:e-p:64:64-p10:8:8-p20:8:8-i64:64-i128:128-n32:64-S128-ni:1:10:20"
# What the kit gives its clang for wasm64.
TARGET = ["--target=wasm64-unknown-unknown", "-mcpu=lime1", "--no-default-config", "-no-canonical-prefixes"]
CODE = ["-ffunction-sections", "-fdata-sections", "-O3", "-c"]
for option in ("-expand-div-rem-bits=64", "-expand-fp-convert-bits=64", "-trap-unreachable", "-disable-machine-licm", "-disable-postra-machine-licm", "-sink-common-insts=false"):
    CODE += ["-mllvm", option]
C = [*TARGET, "-ffreestanding", "-nostdinc", "-I", HERE / "module" / "include"]


def prove(folder):
    """Proves and builds the static library, and returns the file of LLVM's module that this handed
    to its compiler."""
    kept = folder / "kept.bc"
    # What is built for x86-64 is not used, so it need not be quick.
    library.prove(folder / "x86.a", folder, kept, "-O0")
    return kept


def for_wasm(text):
    """The text of an LLVM module for x86-64, for wasm64, with its calls exported by their names."""
    text = re.sub(r"^target datalayout = .*$", f'target datalayout = "{LAYOUT}"', text, flags=re.M)
    text = re.sub(r"^target triple = .*$", 'target triple = "wasm64-unknown-unknown"', text, flags=re.M)
    text = re.sub(r' "probe-stack"="[^"]*"| "stack-probe-size"="[^"]*"', "", text)
    text = re.sub(r'"target-cpu"="[^"]*"', '"no-builtin-bcmp" "no-builtin-memcmp" "no-builtin-strlen" "target-cpu"="lime1"', text)
    groups = dict(re.findall(r"^attributes #(\d+) = \{ (.*) \}$", text, flags=re.M))
    more = []

    def exported(found):
        number = len(groups) + 1000 + len(more)
        more.append(f'attributes #{number} = {{ {groups[found[3]]} "wasm-export-name"="{found[2]}" }}')
        return f"{found[1]}#{number} {{"

    text = re.sub(r'^(define (?!internal)[^\n]*?@"?(bobbinazure_\w+)"?\([^\n]*\) )#(\d+) \{$', exported, text, flags=re.M)
    return text + "\n".join(["", *more, ""])


def link(code, header, folder):
    """The bytes of the WebAssembly module of this code, with the heap and the inline functions of
    the header."""
    tools = kit() / "toolchain"
    clang = tools / "bin" / "clang"
    run(clang, "-S", "-emit-llvm", "--target=x86_64-unknown-linux-gnu", "-x", "ir", code, "-o", "x86.ll", cwd=folder)
    (folder / "wasm.ll").write_text(for_wasm((folder / "x86.ll").read_text()))
    run(clang, *TARGET, *CODE, "-x", "ir", "wasm.ll", "-o", "module.o", "-Wno-override-module", cwd=folder)
    for name in ("heap", "calls"):
        run(clang, *C, *CODE, "-I", header.parent, HERE / "module" / f"{name}.c", "-o", f"{name}.o", "-Wno-parentheses", cwd=folder)
    run(tools / "bin" / "llvm-ar", "rcs", "whole.a", "module.o", "heap.o", "calls.o", cwd=folder)
    run(kit() / "bin" / "rattle-link", "--target", "wasm64-unknown-unknown", "--toolchain", tools, "-o", "whole.wasm", "whole.a", cwd=folder)
    return (folder / "whole.wasm").read_bytes()
