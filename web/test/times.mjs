// node web/test/times.mjs ADAPTER EXPORT..: how long calls of nuigatre.wasm take on an adapter, beside those of a first call.
import { readFileSync } from "node:fs";
import { Nuigatre } from "../nuigatre.mjs";

const [file, ...required] = process.argv.slice(2), wasm = readFileSync(file);
const begun = performance.now(), library = await Nuigatre.load();
const milliseconds = (it) => `${it < 10 ? it.toFixed(2) : it.toFixed(0)} ms`;
console.log(`load: ${milliseconds(performance.now() - begun)}; proved: ${library.isProved}`);
for (const [name, call] of [
  ["trim", () => library.trim(wasm, required)],
  ["why", () => library.why(wasm, required)],
  ["dedupe", () => library.dedupe(wasm)],
]) {
  const times = [], most = performance.now() + 5000;
  while (times.length < 200 && (times.length < 5 || performance.now() < most)) {
    const from = performance.now();
    call();
    times.push(performance.now() - from);
  }
  const [first] = times, sorted = times.sort((a, b) => a - b);
  console.log(`${name}: ${milliseconds(sorted[0])} at best, ${milliseconds(sorted[sorted.length >> 1])} in the middle of ${times.length}; first ${milliseconds(first)}`);
}
console.log(`memory: ${(library.memory / 2 ** 20).toFixed(1)} MB`);
