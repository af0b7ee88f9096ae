// What the page and why.mjs say of a component whose worlds are there is what the library says: `wcplan --imports` and `--why`.
import assert from "node:assert/strict";
import { readFileSync } from "node:fs";
import test from "node:test";
import { compute, readFile, view } from "../answers.mjs";
import { MOST } from "../boxes.mjs";
import { componentSentence } from "../component.mjs";
import { Nuigatre } from "../nuigatre.mjs";
import { forest, pathOf } from "../picture.mjs";
import { component, throughAdapter, throughTable } from "./components.mjs";

const library = await Nuigatre.load();
const example = (name) => new Uint8Array(readFileSync(new URL("../../examples/" + name, import.meta.url)));
const worlds = new Uint8Array(readFileSync(new URL("../wasi-command.json", import.meta.url)));
const filesOf = ({ main }) => [readFile(library, "main.wasm", main), readFile(library, "worlds.json", worlds)];
const notes = () => ["main.wasm", "adapter.wasm", "notes.json"].map((it) => readFile(library, it, example("wcplan/" + it)));
const shown = (files, state = {}) => view(compute(library, files, state), state);
const paths = ({ picture }) => forest(picture.boxes).all.filter((it) => it.kind === "import").map(pathOf);
const FILES = "wasi:filesystem/types@0.2.6", CLOCKS = "wasi:clocks/wall-clock@0.2.6";

test("an interface that is imported for its types is said to be", () => {
  const files = filesOf(component()), found = shown(files);
  assert.deepEqual(found.faults, []);
  assert.deepEqual(found.interfaces.map((it) => [it.key, it.kind, it.count]), [[FILES, "main", 1], [CLOCKS, "types", 0]]);
  assert.deepEqual([found.numbers.interfaces, found.numbers.functions, found.hasTypes], [2, 1, true]);
  const one = shown(files, { picked: CLOCKS });
  assert.equal(one.picked.says, `It is imported for its types alone: [method]descriptor.stat of ${FILES} needs its type datetime. It goes when nothing that is imported needs one.`);
  assert.deepEqual(paths(one), [`main.wasm → wasi:cli/run@0.2.6#run → filesystem/types descriptor.stat → ${CLOCKS} for its type datetime`]);
  // each import that the library lists is there, and no other
  assert.deepEqual(found.interfaces.map((it) => it.key), library.componentImports({ ...component(), worlds }).map((it) => it.interface));
});

test("marks say where to cut, and callers who calls through a table", () => {
  const one = shown(filesOf(throughTable()), { picked: FILES });
  assert.deepEqual(paths(one), [`main.wasm → * table 0 → called by func 1 → * func 3 → ${FILES} [method]descriptor.stat`]);
  assert.equal(one.picked.says, "main.wasm imports it itself, in func 3. It goes when no code there calls it. Each path goes through table 0 and func 3, marked *: without a call of one of these it goes.");
  const { title } = one.picture.boxes.find((it) => it.label === "called by func 1");
  assert.equal(title, "of main.wasm func 1 may call it through the table");
  // of all imports nothing is marked
  assert.deepEqual([shown(filesOf(throughTable())).picture.cuts, paths(shown(filesOf(throughTable()))).some((it) => it.includes("*"))], [[], false]);
});

test("of many functions that name an import the first are said, and how many more there are", () => {
  const by = Array.from({ length: 9 }, (_, index) => ({ index, name: index ? null : "zero" })), main = { name: "m", exports: [{ kind: "func", index: 1, name: "one" }] };
  const says = (count) => componentSentence(main, { kind: "main", modules: [{ adapter: null, imports: 1, by: by.slice(0, count) }] });
  assert.equal(says(9), "m imports it itself, in zero, one, func 2, func 3, func 4 and 4 more. It goes when no code there calls it.");
  assert.equal(says(2), "m imports it itself, in zero and one. It goes when no code there calls it.");
  assert.equal(says(0), "m imports it itself. It goes when no code there calls it.");
});

test("a key has its version or not, or is a package", () => {
  const files = filesOf(component()), keys = (picked) => shown(files, { picked }).picked?.list.map((it) => it.key) ?? null;
  for (const picked of [FILES, "wasi:filesystem/types", "wasi:filesystem", "wasi:filesystem@0.2.6"]) assert.deepEqual(keys(picked), [FILES], picked);
  assert.deepEqual([keys("all"), keys("wasi:sockets"), keys("wasi:nosuch/x"), keys("")], [[FILES, CLOCKS], [], null, null]);
  assert.equal(shown(files, { picked: "wasi:sockets/tcp" }).picked.says, "It is in the world, and not imported.");
  const [main, adapter] = notes();
  // without worlds too
  for (const picked of ["my:notes/store@1.2.0", "my:notes/store", "my:notes", "my:notes@1.2.0"]) assert.equal(shown([main, adapter], { picked }).picked.key, "my:notes/store@1.2.0");
  assert.equal(shown([main, adapter], { picked: "my:note" }).picked, null);
});

test("what is imported, and the paths, are the library's answers", () => {
  const [{ bytes: main }, { bytes: wasm }, { bytes }] = notes(), asked = { worlds: bytes, world: "app", main, adapters: [{ name: "old-notes", wasm, exports: ["is-ready"] }] };
  const found = shown(notes(), { picked: "my:notes" }), { modules, ways } = library.componentPaths(asked, "my:notes");
  assert.equal(paths(found).length, ways.length);
  const [{ modules: by }] = library.componentImports(asked);
  assert.deepEqual(found.interfaces[0].through, ["main.wasm", ...by[1].exports]);
  // func 5 is the main module's export print, and marked there
  assert.deepEqual([modules[0].items.find((it) => it.only).index, found.picture.cuts], [5, ["print"]]);
  assert.equal(found.picked.says, "main.wasm imports it itself, in print, and length_of of an adapter reaches it too. Each path goes through print, marked *: without that it goes.");
});

test("what goes with calls, and that with exports that are switched an interface for types is not denied", () => {
  const asked = throughAdapter(), [{ wasm }] = asked.adapters, files = [...filesOf(asked), readFile(library, "old.wasm", wasm)];
  const found = shown(files, { picked: FILES }), [goes] = library.componentImports({ ...asked, worlds });
  assert.deepEqual([found.faults, goes.kind, goes.modules[0].exports], [[], "goes", ["f"]]);
  assert.equal(found.picked.says, `It is imported because main.wasm calls f. It goes when that is not used, and ${goes.modules[0].bytes} bytes of the adapter with it. Each path goes through wasi:cli/run@0.2.6#run and f, marked *: without a call of one of these it goes.`);
  assert.deepEqual(paths(found), [`main.wasm → * wasi:cli/run@0.2.6#run → * f → ${FILES} [method]descriptor.stat`]);
  const kinds = (switched) => shown(files, { switched }).interfaces.map((it) => [it.key, it.kind]);
  assert.deepEqual(kinds({}), [[FILES, "goes"], [CLOCKS, "types"]]);
  assert.deepEqual(kinds({ "old g": false }), [[FILES, "used"], [CLOCKS, "types"]]);
  assert.deepEqual(kinds({ "old f": false }), [[CLOCKS, "types"], [FILES, null]]);
  assert.equal(shown(files, { switched: { "old g": false } }).hasTypes, false);
  assert.match(shown(files, { switched: { "old g": false }, picked: CLOCKS }).picked.says, /may change that\.$/);
});

test("a long path is drawn without its middle, and takes no long time", () => {
  const files = filesOf(component(30000)), begun = performance.now(), found = shown(files, { picked: FILES });
  assert.ok(found.picture.boxes.length < 10 && performance.now() - begun < 20000);
  // a path through all functions: the last one calls the import
  const number = (it) => (it < 128 ? [it] : [(it & 127) | 128, ...number(it >>> 7)]), section = (id, content) => [id, ...number(content.length), ...content];
  const count = 5000, all = (of) => Array.from({ length: count }, (_, n) => of(n)).flat(), body = (n) => [3 + number(n).length, 0, 0x10, ...number(n), 0x0b];
  const main = Uint8Array.from([0, 0x61, 0x73, 0x6d, 1, 0, 0, 0, 1, 4, 1, 0x60, 0, 0, 2, 11, 1, 5, 97, 58, 98, 47, 99, 1, 102, 0, 0, ...section(3, [...number(count), ...all(() => 0)]), 7, 5, 1, 1, 101, 0, 1, ...section(10, [...number(count), ...all((n) => body(n + 1 < count ? n + 2 : 0))])]);
  const { picture } = shown([readFile(library, "long.wasm", main)]);
  assert.ok(picture.boxes.length < MOST.steps + 10 && picture.boxes.some((it) => /^… [\d,]+ items$/.test(it.label)));
});

test("names that are chosen to be taken for others are not", () => {
  const [main, adapter, notes_] = notes(), renamed = (name) => readFile(library, name, adapter.bytes);
  // files of the names of what each object has, and an adapter without a name
  for (const name of ["__proto__", "constructor", "toString.wasm", ".wasm"]) {
    const found = shown([main, renamed(name), notes_]);
    assert.deepEqual([found.faults, found.files[1].as], [[], "old-notes"], name);
  }
  // exports that are called as the numbers of items, and imports whose names have blanks
  const asked = throughAdapter(["1", "2"]), [{ wasm }] = asked.adapters, list = [readFile(library, "main.wasm", asked.main), readFile(library, "old.wasm", wasm)];
  assert.deepEqual(paths(shown(list)), [`main.wasm → wasi:cli/run@0.2.6#run → 1 → ${FILES} [method]descriptor.stat`]);
});
