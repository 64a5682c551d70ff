// What a built page holds, for node: its planner, its layout and the worker's script.
import { execFileSync } from "node:child_process";
import { mkdtempSync, readFileSync, rmSync, writeFileSync } from "node:fs";
import { tmpdir } from "node:os";
import { dirname, join } from "node:path";
import { fileURLToPath } from "node:url";
import vm from "node:vm";

const here = dirname(fileURLToPath(import.meta.url));

export function partsOf(page) {
  const text = readFileSync(page, "utf8");
  const part = id => text.match(new RegExp(`<script type="[a-z/]+" id="${id}">([^]*?)</script>`))[1];
  const bytes = id => Buffer.from(part(`module-${id}`), "base64");
  const script = `(() => {${part("worker-script")}\nreturn { Planner, Told, Origins: Sources, Comparison, Linking, Lines, Places, STEPS, readableName, rustName, cppName, customOf, largestFirst, expressionWords }; })()`;
  return { planner: bytes("planner"), linked: bytes("linked"), overlap: bytes("overlap"), layout: JSON.parse(part("layout")), ...vm.runInThisContext(script, { filename: "worker-script" }) };
}

// The planner's module, compiled. An engine from before tables of 64 bits gets it with one of 32.
export async function compile(planner) {
  try {
    return await WebAssembly.compile(planner);
  } catch {
    const folder = mkdtempSync(join(tmpdir(), "page-check-"));
    try {
      writeFileSync(join(folder, "wide.wasm"), planner);
      execFileSync("python3", [join(here, "..", "building", "narrow_table.py"), join(folder, "wide.wasm"), join(folder, "narrow.wasm")], { stdio: "pipe" });
      return await WebAssembly.compile(readFileSync(join(folder, "narrow.wasm")));
    } finally {
      rmSync(folder, { recursive: true });
    }
  }
}
