// node web/test/beside-wctrim.mjs WCTRIM [FILE ..]: each module is renamed, and trimmed for each of its exports, here and by
// the program. Without a FILE the modules are those of examples, and damaged ones made of them.
import { spawnSync } from "node:child_process";
import { mkdtempSync, readFileSync, rmSync, writeFileSync } from "node:fs";
import { tmpdir } from "node:os";
import { Fault, Nuigatre } from "../nuigatre.mjs";
import { damaged, numbers } from "./damage.mjs";

const [wctrim, ...given] = process.argv.slice(2), library = await Nuigatre.load();
const folder = mkdtempSync(`${tmpdir()}/beside-wctrim-`), [input, out] = ["in.wasm", "out.wasm"].map((it) => `${folder}/${it}`);
const count = { same: 0, refused: 0, differs: 0 };

/** What the program writes, or null where it refuses. */
function natively(words) {
  const ran = spawnSync(wctrim, words, { stdio: ["ignore", "ignore", "pipe"] });
  if (ran.status === 0) return readFileSync(out);
  // status 1 is also that of a file that can't be read or written
  if (ran.status !== 1 || /cannot/.test(ran.stderr)) throw new Error(`${wctrim} ${words.join(" ")}: status ${ran.status} ${ran.stderr}`);
  return null;
}

function here(call) {
  try {
    return Buffer.from(call());
  } catch (why) {
    if (why instanceof Fault) return null;
    throw why;
  }
}

function compare(what, words, call) {
  rmSync(out, { force: true });
  const found = here(call), wanted = natively(words);
  if (found === null && wanted === null) return count.refused++;
  if (found !== null && wanted !== null && found.equals(wanted)) return count.same++;
  console.log(`differs: ${what}`);
  return count.differs++;
}

function exportsOf(wasm) {
  try {
    return WebAssembly.Module.exports(new WebAssembly.Module(wasm)).map((it) => it.name).filter((it) => it && !it.startsWith("-"));
  } catch {
    return [];
  }
}

function compareModule(what, wasm, names) {
  writeFileSync(input, wasm);
  compare(`dedupe ${what}`, ["dedupe", input, out], () => library.dedupe(wasm).module);
  for (const required of names) {
    compare(`trim ${what} ${required}`, ["trim", input, out, ...required], () => library.trim(wasm, required));
    const realloc = "cabi_realloc", words = ["trim", input, out, "--realloc", realloc, ...required];
    compare(`trim ${what} --realloc ${required}`, words, () => library.trim(wasm, required, { realloc }));
  }
}

try {
  const examples = ["adapter", "main", "trimmed", "duplicate-imports", "wcplan/adapter", "wcplan/main", "wcplan/trimmed"];
  const folder = new URL("../../examples/", import.meta.url), drawn = numbers(3);
  for (const file of given.length ? given : examples.map((it) => new URL(`${it}.wasm`, folder))) {
    const wasm = readFileSync(file), names = exportsOf(wasm).slice(0, 40);
    const pairs = names.map((it, n) => [it, names[(n + 1) % names.length]]);
    compareModule(String(file), wasm, [...names.map((it) => [it]), ...pairs]);
    for (let n = 0; !given.length && n < 40; n++) compareModule(`${file}, damaged ${n}`, damaged(wasm, drawn), names.slice(n % 3, (n % 3) + 1).map((it) => [it]));
  }
} finally {
  rmSync(folder, { recursive: true });
}
console.log(`${count.same} the same, ${count.refused} refused by both, ${count.differs} differ`);
process.exit(count.differs ? 1 : 0);
