// node --test web/test/*.test.mjs: the calls of nuigatre.wasm give what the examples have, and end whatever is passed.
import assert from "node:assert/strict";
import { readFileSync } from "node:fs";
import test from "node:test";
import { CALLS } from "../calls.mjs";
import { BadArgument, Fault, Nuigatre, NuigatreError, OutOfMemory, Stopped } from "../nuigatre.mjs";
import { damaged, numbers } from "./damage.mjs";
import { stub } from "./stub.mjs";

const example = (name) => readFileSync(new URL("../../examples/" + name, import.meta.url));
const library = await Nuigatre.load();
const adapter = example("adapter.wasm"), trimmed = example("trimmed.wasm");
const same = (found, wanted) => assert.equal(Buffer.compare(Buffer.from(found), Buffer.from(wanted)), 0, "other bytes");

/** The component of examples/wcplan. */
const notes = (others = {}) => ({
  worlds: example("wcplan/notes.json").toString(),
  world: "app",
  main: example("wcplan/main.wasm"),
  adapters: [{ name: "old-notes", wasm: example("wcplan/adapter.wasm"), exports: ["is-ready"] }],
  ...others,
});

/** What a call throws. */
function thrown(call) {
  try {
    call();
  } catch (why) {
    if (why instanceof NuigatreError) return why;
    throw why;
  }
  return assert.fail("it has a result");
}

test("the module imports nothing, and exports the calls of the header and its memory", () => {
  assert.deepEqual(WebAssembly.Module.imports(library.module), []);
  const found = WebAssembly.Module.exports(library.module).map((it) => it.name).sort();
  const wanted = ["alloc", "free", "limit", "proved", ...Object.keys(CALLS)].map((it) => "nuigatre_" + it);
  assert.deepEqual(found, ["memory", ...wanted].sort());
});

test("trim gives the trimmed adapter of the examples", () => {
  same(library.trim(adapter, ["size_of"], { realloc: "cabi_realloc" }), trimmed);
});

test("dedupe renames the second of two imports", () => {
  const { module, renames } = library.dedupe(example("duplicate-imports.wasm"));
  assert.deepEqual(renames, [{ module: "env", original: "log", name: "log [v2]" }]);
  const names = WebAssembly.Module.imports(new WebAssembly.Module(module)).map((it) => it.name);
  assert.deepEqual(names.filter((it) => it.startsWith("log")), ["log", "log [v2]"]);
  same(library.dedupe(adapter).module, adapter);
});

test("why gives the chain to an import", () => {
  const { items, finders, exports, imports } = library.why(adapter, ["size_of"]);
  assert.equal(imports.length, WebAssembly.Module.imports(new WebAssembly.Module(adapter)).length);
  assert.deepEqual(exports, ["size_of"]);
  const [end] = imports.filter((it) => it !== null), chain = [];
  for (let at = end; ; at = finders[at]) {
    chain.unshift(items[at].space);
    if (finders[at] === at) break;
  }
  assert.equal(chain[0], "func");
});

// imports and exports of each kind; `wasm-objdump -x` lists the same
const KINDS = Buffer.from(
  "0061736d0100000001070160027f7e017d02260403656e760166000003656e760174017001010203656e76016d02000303656e760167037e01" +
    "030201000719040372756e0001036d656d020003746162010003676c6f03000a05010300000b0013046e616d65010c0200036c6f6701046d61696e",
  "hex",
);

test("scan lists imports and exports of each kind, and names of functions", () => {
  const func = { params: ["i32", "i64"], results: ["f32"] };
  const table = { element_type: "funcref", table64: false, initial: 1, maximum: 2 };
  const memory = { memory64: false, shared: false, initial: 3, maximum: null, page_size_log2: null };
  const global = { content_type: "i64", mutable: true };
  assert.deepEqual(library.scan(KINDS), {
    imports: [
      { module: "env", name: "f", kind: "func", type: func },
      { module: "env", name: "t", kind: "table", type: table },
      { module: "env", name: "m", kind: "memory", type: memory },
      { module: "env", name: "g", kind: "global", type: global },
    ],
    exports: [
      { name: "run", kind: "func", index: 1, type: func },
      { name: "mem", kind: "memory", index: 0, type: memory },
      { name: "tab", kind: "table", index: 0, type: table },
      { name: "glo", kind: "global", index: 0, type: global },
    ],
    function_names: [
      { index: 0, name: "log" },
      { index: 1, name: "main" },
    ],
  });
  const kinds = (list) => list.map(({ kind, ...it }) => ({ ...it, kind: kind === "func" ? "function" : kind }));
  const module = new WebAssembly.Module(adapter), { imports, exports } = library.scan(adapter);
  assert.deepEqual(kinds(imports).map(({ type, ...it }) => it), WebAssembly.Module.imports(module));
  assert.deepEqual(kinds(exports).map(({ type, index, ...it }) => it), WebAssembly.Module.exports(module));
  const cut = thrown(() => library.scan(KINDS.subarray(0, 12)));
  assert.deepEqual([cut.call, cut.text, cut.number, cut.place.kind, cut.place.offset], ["scan", "Truncated", 3, "bytes", 12]);
});

// `f` of `a:b/c@1.0.0` is called by function 2, `telemetry`, which stands in a table; function 1, the export `run`, does nothing
const TABLE = Buffer.from(
  "0061736d010000000104016000000211010b613a622f6340312e302e300166000003030200000404017000040707010372756e0001090701" +
    "0041010b01020a090202000b040010000b0013046e616d65010c01020974656c656d65747279",
  "hex",
);

test("paths lead to the imports of main modules, with names", () => {
  const items = [
    { kind: "item", space: "elem", index: 0, name: null },
    { kind: "item", space: "func", index: 2, name: "telemetry" },
    { kind: "item", space: "func", index: 0, name: null },
  ];
  const steps = [{ kind: "fills", space: "table", index: 0 }, ...items], ways = [{ interface: "a:b/c@1.0.0", name: "f", steps }];
  assert.deepEqual(library.paths(TABLE), ways);
  const marked = [steps[0], ...items.map((it, n) => ({ ...it, only: n < 2 }))];
  assert.deepEqual(library.paths(TABLE, { exports: ["run"], imports: ["a:b/c"] }), [{ ...ways[0], steps: marked }]);
  assert.deepEqual(library.paths(TABLE, { imports: ["a:b/c@1.0.0=g"] }), []);
  const missing = thrown(() => library.paths(TABLE, { exports: ["run", "other"] }));
  assert.deepEqual([missing.call, missing.number, missing.missing], ["paths", 2, "other"]);
  const cut = thrown(() => library.paths(TABLE.subarray(0, 12)));
  assert.deepEqual([cut.text, cut.place.kind, cut.place.offset], ["Read: Truncated", "bytes", 12]);
});

test("a component says why it imports what it does", () => {
  const found = library.componentPaths(notes(), "my:notes/store");
  assert.match(JSON.stringify(found), /my:notes\/store@1\.2\.0/);
  assert.deepEqual(library.componentPaths(notes(), "my:notes"), library.componentPaths(notes(), "my:notes@1.2.0"));
  const store = library.componentImports(notes()).find((it) => it.interface === "my:notes/store@1.2.0");
  assert.ok(["main", "goes", "stays"].includes(store.kind));
  const unknown = thrown(() => library.componentPaths(notes(), "my:notes/other"));
  assert.deepEqual([unknown.call, unknown.number, unknown.text], ["component_paths", 16, "UnknownImport `my:notes/other`"]);
  assert.deepEqual([unknown.place.kind, unknown.place.key], ["imports", "my:notes/other"]);
  assert.ok(unknown.place.imports.includes("my:notes/store@1.2.0"));
});

test("a component's world and plan are those of the examples", () => {
  const { record, main, adapters } = library.plannedWorld(notes());
  same(main, example("wcplan/main.wasm"));
  assert.deepEqual(adapters.map((it) => it.name), ["old-notes"]);
  same(adapters[0].wasm, example("wcplan/trimmed.wasm"));
  assert.deepEqual(record.plan.map(({ name, slot, realloc }) => [name, slot, realloc]), [
    ["[constructor]note", 0, null],
    ["[method]note.text", 1, "cabi_realloc"],
    ["[constructor]note", 2, null],
    ["summarize", 3, "cabi_import_realloc"],
  ]);
  assert.deepEqual(library.plan(notes()), record.plan);
  const lifted = [{ interface: null, name: "print", options: 7 }, { interface: null, name: "is-ready", options: 0 }];
  assert.deepEqual(record.export_options, lifted);
  const { plan, ...world } = record;
  assert.deepEqual(library.world(notes()).record, world);
  library.validate(notes());
  library.validate(notes(), "old-notes");
  assert.equal(thrown(() => library.validate(notes(), "other")).constructor, BadArgument);
});

test("a valid module has the record that the world has of it", () => {
  const { record } = library.world(notes());
  assert.deepEqual(library.validatedModule(notes()), record.info);
  const [{ import: used }] = record.info.imports.find((it) => it.module === "old-notes").instance.names;
  const adapter = library.validatedModule(notes(), "old-notes", [{ name: used.func, ...used.type }]);
  assert.deepEqual(adapter.exports.map((it) => it.name).sort(), record.adapters[0].info.exports.map((it) => it.name).sort());
  const other = thrown(() => library.validatedModule(notes(), "old-notes", [{ name: "other", params: ["f64"], results: [] }]));
  assert.match(other.text, /AdapterModuleDidNotExport|adapter module did not export/);
  assert.equal(thrown(() => library.validatedModule(notes(), "old-notes", [{ name: "other", params: ["x"], results: [] }])).constructor, BadArgument);
});

test("worlds are passed as a text, as bytes or as an object", () => {
  const text = notes().worlds, plan = library.plan(notes());
  assert.deepEqual(library.plan(notes({ worlds: new TextEncoder().encode(text) })), plan);
  assert.deepEqual(library.plan(notes({ worlds: JSON.parse(text) })), plan);
});

test("a fault has its number, its text and its place", () => {
  const without = notes();
  without.adapters[0].exports = [];
  const missing = thrown(() => library.world(without));
  assert.ok(missing instanceof Fault);
  assert.equal(missing.text, "World: Main: MissingWorldExport");
  assert.deepEqual([missing.place.kind, missing.place.name], ["missing-export", "is-ready"]);
  assert.equal(missing.message, 'World: Main: MissingWorldExport: missing export "is-ready"');
  const cut = thrown(() => library.trim(adapter.subarray(0, 100), ["size_of"]));
  assert.deepEqual([cut.call, cut.text, cut.number, cut.place.kind], ["trim", "Read: Truncated", 1 + 256 * 3, "bytes"]);
  const name = thrown(() => library.why(adapter, ["size_of", "other"]));
  assert.deepEqual([name.message, name.missing], ["adapter module does not have export `other`", "other"]);
  assert.equal(thrown(() => library.trim(adapter, [])).constructor, BadArgument);
  assert.equal(library.faultText("trim", 99999), null);
  const twice = thrown(() => library.world(notes({ worlds: '{"worlds":[],"worlds":[]}' })));
  assert.equal(twice.text, "Json: repeated member");
  const wrong = thrown(() => library.world(notes({ worlds: '{"worlds":!}' })));
  assert.deepEqual([wrong.text, wrong.place], ["Json: not JSON", { kind: "json-byte", byte: 10 }]);
  assert.deepEqual([twice.place.path, twice.message, wrong.message], ["worlds", "Json: worlds: repeated member", "Json: not JSON at byte 10"]);
  const lacking = thrown(() => library.world(notes({ worlds: "{}" })));
  assert.deepEqual([lacking.text, lacking.place.path, lacking.message], ["Json: worlds: missing", "worlds", "Json: worlds: missing"]);
  assert.equal(thrown(() => library.world(notes({ worlds: "5" }))).message, "Json: not an object");
  assert.equal(thrown(() => library.world(notes({ world: 1.5 }))).message, "Json: world: not an index");
});

test("damaged modules and messages end each call, and change no later one", () => {
  const drawn = numbers(1), names = ["adapter", "main", "duplicate-imports", "wcplan/adapter", "wcplan/main"];
  const modules = names.map((it) => example(it + ".wasm")), text = example("wcplan/notes.json");
  const required = ["size_of", "write", "is-ready", "read_text", "cabi_import_realloc"];
  let refused = 0, memory = 0;
  const tried = (call) => {
    try {
      call();
    } catch (why) {
      if (!(why instanceof Fault || why instanceof BadArgument)) throw why;
      assert.ok(why instanceof BadArgument || why.text.length > 0);
      refused++;
    }
  };
  for (let count = 0; count < 2000; count++) {
    const wasm = damaged(modules[drawn(modules.length)], drawn), wanted = [required[drawn(required.length)]];
    tried(() => library.dedupe(wasm));
    tried(() => library.trim(wasm, wanted, { realloc: drawn(2) ? "cabi_realloc" : null, pageSizeLog2: drawn(18) }));
    tried(() => library.why(wasm, wanted));
    tried(() => library.paths(wasm, { exports: drawn(2) ? wanted : [], imports: drawn(2) ? ["__main_module__", "env=memory"] : [] }));
    const message = drawn(2) ? { worlds: new TextDecoder().decode(damaged(text, drawn)) } : drawn(2) ? { main: wasm } : {};
    const component = notes(message);
    if (drawn(2)) component.adapters[0].wasm = damaged(component.adapters[0].wasm, drawn);
    tried(() => library.plannedWorld(component));
    tried(() => library.componentPaths(component, "all"));
    if (count === 1000) memory = library.memory;
  }
  assert.ok(refused > 2000, `${refused} are refused`);
  assert.ok(library.memory <= 2 * memory, `memory goes from ${memory} to ${library.memory}`);
  same(library.trim(adapter, ["size_of"], { realloc: "cabi_realloc" }), trimmed);
});

test("where memory is refused, the call says so, and the next one is as before", async () => {
  const wanted = JSON.stringify(library.plannedWorld(notes()).record), PAGE = 65536;
  const begun = (await Nuigatre.load(library.module)).memory;
  let refused = 0, isRefused = true;
  for (let limit = begun; isRefused; limit += PAGE) {
    assert.ok(limit < begun + 64 * PAGE, "it is refused with 4 MB");
    const small = await Nuigatre.load(library.module, { memoryLimit: limit });
    for (let again = 0; again < 3; again++) {
      try {
        const large = "x".repeat(300000);
        assert.equal(JSON.stringify(small.plannedWorld(notes({ options: [{ name: large }] })).record), wanted);
        isRefused = false;
      } catch (why) {
        assert.ok(why instanceof OutOfMemory, why);
        assert.ok(isRefused, "an earlier call with the same limit was not refused");
        refused++;
      }
      assert.ok(small.memory <= limit, "the memory is larger than the limit");
    }
  }
  assert.ok(refused > 2, `${refused} are refused`);
});

test("no choice of a seed changes a result", async () => {
  const other = await Nuigatre.load(library.module, { seed: [1n, 2n] });
  assert.deepEqual(other.plannedWorld(notes()), library.plannedWorld(notes()));
  assert.deepEqual(other.why(adapter, ["size_of"]), library.why(adapter, ["size_of"]));
});

test("after a trap the next call begins anew", async () => {
  const trapping = await Nuigatre.load(stub());
  for (let again = 0; again < 2; again++) assert.ok(thrown(() => trapping.dedupe(adapter)) instanceof Stopped);
  assert.equal(trapping.memory, 0);
  assert.equal(thrown(() => trapping.why(adapter, [])).constructor, OutOfMemory);
  await assert.rejects(Nuigatre.load(stub({ abi: 1 })), /form 1/);
});
