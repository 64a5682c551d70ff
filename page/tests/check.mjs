// Checks the page; see page/check.
import { mkdirSync, mkdtempSync, readFileSync, rmSync } from "node:fs";
import { spawnSync } from "node:child_process";
import { tmpdir } from "node:os";
import { dirname, join, resolve } from "node:path";
import { fileURLToPath } from "node:url";
import { parseArgs } from "node:util";
import { checkInBrowser } from "./in_browser.mjs";
import { checkInNode } from "./in_node.mjs";

const root = resolve(dirname(fileURLToPath(import.meta.url)), "../..");
const { values: words } = parseArgs({
  options: { page: { type: "string" }, program: { type: "string" }, chromium: { type: "string" }, shots: { type: "string" }, "no-build": { type: "boolean" }, "no-browser": { type: "boolean" } },
});

let passed = 0, failed = 0;
const notTried = [];

function report(what, test, details = []) {
  let holds = false;
  try {
    holds = test() === true;
  } catch (error) {
    details = [String(error.stack ?? error)];
  }
  if (holds) passed++;
  else failed++;
  console.log(`${holds ? "ok     " : "FAILED "} ${what}`);
  if (!holds) for (const line of details.slice(0, 10)) console.log(`        ${line}`);
}

// The page is built again, and its bytes compared.
function checkBuild(page) {
  if (words["no-build"]) return notTried.push("the build");
  const folder = mkdtempSync(join(tmpdir(), "page-again-"));
  try {
    const run = spawnSync(join(root, "page/build"), ["--out", join(folder, "page.html")], { encoding: "utf8" });
    if (run.status !== 0) return notTried.push(`the build (${run.stderr.trim().split("\n").at(-1)})`);
    report("built again, the page has the same bytes", () => readFileSync(page).equals(readFileSync(join(folder, "page.html"))));
  } finally {
    rmSync(folder, { recursive: true });
  }
}

const found = name => spawnSync("sh", ["-c", `command -v ${name}`], { encoding: "utf8" }).stdout.trim() || null;

const page = resolve(words.page ?? join(root, "dist/page.html"));
// A program that is built from these sources.
const built = spawnSync(join(root, "tools/built"), { encoding: "utf8" });
const program = words.program ?? (built.status === 0 ? join(root, built.stdout.trim()) : null);
if (!program) notTried.push("the texts of the program (tools/release or ./translate --prove builds it; or --program FILE)");
checkBuild(page);
await checkInNode({ page, root, program, report });
const chromium = words["no-browser"] ? null : words.chromium ?? process.env.CHROMIUM ?? found("chromium") ?? found("chromium-browser") ?? found("google-chrome");
if (!chromium) notTried.push(`the page in a browser${words["no-browser"] ? "" : " (no Chromium is found)"}`);
else {
  if (words.shots) mkdirSync(words.shots, { recursive: true });
  await checkInBrowser({ page, root, program, report, leave: what => notTried.push(what), chromium, shots: words.shots ?? null });
}
for (const what of notTried) console.log(`not tried: ${what}`);
console.log(`${passed} passed, ${failed} failed${notTried.length ? `, ${notTried.length} not tried` : ""}`);
process.exit(failed ? 1 : 0);
