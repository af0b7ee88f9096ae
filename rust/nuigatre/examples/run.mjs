// Runs in node what the example `encoder` wrote: `encoder OUT .. | node run.mjs OUT [EXPORT]`.
//
// Instantiates the modules, each with what its lines say, and calls the export of this name that is lifted, if one is given:
// `wasi:cli/run@0.2.6#run`. The host has what a program of WASI needs that writes to its standard output; all else that is
// called ends it.
import { readFileSync } from "node:fs";

const [, , folder, called] = process.argv;
const lines = readFileSync(0, "utf8").trimEnd().split("\n").map((line) => line.split("\t"));
const instances = new Map();
const written = [];

const memory = () => new DataView(instances.get("main").exports.memory.buffer);
const texts = (pointer, length) => Buffer.from(new Uint8Array(memory().buffer, pointer, length));

/// A result without an error, and with no value.
const ok = (pointer) => memory().setUint8(pointer, 0);
/// A list without items.
const none = (pointer) => (memory().setUint32(pointer, 0, true), memory().setUint32(pointer + 4, 0, true));

const write = (stream, pointer, length, result) => {
  if (stream === 1) written.push(texts(pointer, length));
  ok(result);
};
const host = {
  "get-stdin": () => 0,
  "get-stdout": () => 1,
  "get-stderr": () => 2,
  "get-arguments": none,
  "get-environment": none,
  "get-directories": none,
  "get-terminal-stdin": ok,
  "get-terminal-stdout": ok,
  "get-terminal-stderr": ok,
  "[method]output-stream.check-write": (_, result) => (ok(result), memory().setBigUint64(result + 8, 4096n, true)),
  "[method]output-stream.write": write,
  "[method]output-stream.blocking-write-and-flush": write,
  "[method]output-stream.flush": (_, result) => ok(result),
  "[method]output-stream.blocking-flush": (_, result) => ok(result),
};

function supplied(kind, from, name) {
  if (kind === "export") return instances.get(from.replace(/^adapter /, "")).exports[name];
  if (name.startsWith("[resource-drop]")) return () => {};
  return host[name] ?? (() => { throw new Error(`the host has no ${from} ${name}`); });
}

for (const [, module] of lines.filter(([word]) => word === "module")) {
  const imports = {};
  for (const [word, of, from, field, kind, by, name] of lines) {
    if (word === "supply" && of === module) (imports[from] ??= {})[field] = supplied(kind, by, name);
  }
  const wasm = readFileSync(`${folder}/${module}.wasm`);
  instances.set(module, new WebAssembly.Instance(new WebAssembly.Module(wasm), imports));
}
if (called) {
  const lifted = lines.find(([word, , name]) => word === "lift" && name === called);
  if (!lifted) throw new Error(`no module exports ${called}`);
  const result = instances.get(lifted[1]).exports[called]();
  process.stdout.write(Buffer.concat(written));
  console.log(`${called}: ${result}`);
} else {
  console.log(`${instances.size} modules`);
}
