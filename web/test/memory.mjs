// node web/test/memory.mjs NATIVE_PEAK [MODULE]: calls on large inputs of ten shapes take at most twice the memory of what the
// native library has at once, which the program of native_peak.c says. MODULE is in the place of nuigatre.wasm.
import { spawnSync } from "node:child_process";
import { mkdtempSync, readFileSync, rmSync, writeFileSync } from "node:fs";
import { tmpdir } from "node:os";
import { Nuigatre } from "../nuigatre.mjs";
import { SHAPES } from "./shapes.mjs";

const [program, module] = process.argv.slice(2), folder = mkdtempSync(`${tmpdir()}/nuigatre-memory-`);
const METHODS = { planned_world: "plannedWorld", component_paths: "componentPaths" }, MOST = 2;

/** Writes what is passed to a call; the arguments of the program. */
function written(call, [it, more]) {
  const [one, other] = ["a", "b"].map((name) => `${folder}/${name}`);
  if (it instanceof Uint8Array) {
    writeFileSync(one, it);
    return [call, one, ...(more ?? [])];
  }
  const rest = JSON.stringify({ world: it.world, length: it.main.length, adapters: [] });
  writeFileSync(one, Buffer.concat([Buffer.from('{"resolve":'), it.worlds, Buffer.from(`,${rest.slice(1)}`)]));
  writeFileSync(other, it.main);
  return [call, one, other, ...(more ? [more] : [])];
}

try {
  let largest = 0;
  for (const [what, call, make] of SHAPES) {
    const given = make(), { stdout, status } = spawnSync(program, written(call, given), { encoding: "utf8" });
    const native = Number(/(\d+) bytes at most/.exec(stdout)?.[1]);
    if (status !== 0 || !native) throw new Error(`${what}: ${program} says ${stdout}`);
    const library = await Nuigatre.load(module && readFileSync(module)), begun = library.memory;
    library[METHODS[call] ?? call](...given);
    const taken = library.memory - begun, ratio = taken / native;
    largest = Math.max(largest, ratio);
    if (!(ratio <= MOST)) throw new Error(`${what}: ${call} takes ${taken} bytes, and natively ${native}`);
  }
  console.log(`${SHAPES.length} shapes take at most ${largest.toFixed(2)} times the memory of native calls`);
} finally {
  rmSync(folder, { recursive: true });
}
