// What is passed to the calls is taken as it is, or refused: never as something else.
import assert from "node:assert/strict";
import { readFileSync } from "node:fs";
import test from "node:test";
import * as calls from "../calls.mjs";
import { BadArgument, Fault, Nuigatre } from "../nuigatre.mjs";
import { escaped, placeText } from "../places.mjs";

const example = (name) => readFileSync(new URL("../../examples/" + name, import.meta.url));
const library = await Nuigatre.load();
const adapter = example("adapter.wasm"), text = example("wcplan/notes.json").toString().trimEnd();
const notes = (others = {}) => ({
  worlds: text,
  world: "app",
  main: example("wcplan/main.wasm"),
  adapters: [{ name: "old-notes", wasm: example("wcplan/adapter.wasm"), exports: ["is-ready"] }],
  ...others,
});
const encoded = (it) => new TextEncoder().encode(it);

/** The Fault of a call. */
function faultOf(call) {
  try {
    call();
  } catch (why) {
    if (why instanceof Fault) return why;
    throw why;
  }
  return assert.fail("it has a result");
}

test("a text of worlds is one JSON value, or refused with its own byte", () => {
  const whole = Buffer.byteLength(text), brackets = "[".repeat(129);
  const texts = [
    [`${text},"exports":[]`, whole],
    [`${text},"reject_legacy_names":true`, whole],
    [`${text}\n,"world":0`, whole + 1],
    [`${text},`, whole],
    [`${text}${text}`, whole],
    [`${text}]`, whole],
    [`${text}}`, whole],
    [`${text}\0`, whole],
    [`${text} //`, whole + 1],
    [`\ufeff${text}`, 0],
    [text.slice(0, -1), whole - 1],
    ['{"worlds":[],}', 13],
    ['{"worlds":[]', 12],
    ['{"worlds', 1],
    ['{}"', 2],
    ["{},", 2],
    ["1,2", 1],
    ["tru", 0],
    ["NaN", 0],
    ["", 0],
    [" \n\t", 3],
    [brackets, 128],
  ];
  for (const [worlds, byte] of texts) {
    for (const given of [worlds, encoded(worlds), encoded(worlds).buffer]) {
      for (const call of [library.world, library.plan, library.plannedWorld, library.validate, library.componentImports, (it) => library.componentPaths(it, "all"), library.validatedModule]) {
        const { text: said, number, place, message } = faultOf(() => call.call(library, notes({ worlds: given })));
        const wanted = ["Json: not JSON", calls.FAULTS.message.JSON + 256 * calls.FAULTS.json.NOT_JSON, byte];
        assert.deepEqual([said, number, place.byte, message], [...wanted, `Json: not JSON at byte ${byte}`], JSON.stringify(worlds.slice(-30)));
      }
    }
  }
  const plan = library.plan(notes());
  for (const worlds of [` \r\n\t${text}\n `, encoded(text), new DataView(encoded(text).buffer), JSON.parse(text)]) assert.deepEqual(library.plan(notes({ worlds })), plan);
});

test("worlds as bytes are what they are: no byte is read as another", () => {
  const bytes = encoded(text), at = text.indexOf("store"), wrong = Uint8Array.from([...bytes.slice(0, at), 0xff, ...bytes.slice(at + 1)]);
  assert.equal(faultOf(() => library.plan(notes({ worlds: wrong }))).number, calls.FAULTS.message.NOT_TEXT);
  assert.equal(faultOf(() => library.plan(notes({ worlds: Uint8Array.from([0xef, 0xbb, 0xbf, ...bytes]) }))).place.byte, 0);
  // a number that has no double, and one with another spelling, stay as they are: each is ignored
  const more = text.replace(/^\{/, '{"big":123456789012345678901234567890,"one":1.0e0,"half":"\\u00e9",');
  assert.deepEqual(library.plan(notes({ worlds: more })), library.plan(notes()));
});

test("names that are not Unicode are refused", () => {
  const lone = "\ud800", component = (others) => () => library.plan(notes(others)), [given] = notes().adapters;
  const bad = [
    () => library.trim(adapter, [lone]),
    () => library.trim(adapter, ["size_of", `a${lone}`]),
    () => library.trim(adapter, ["size_of"], { realloc: lone }),
    () => library.why(adapter, ["\udc00"]),
    () => library.paths(adapter, { exports: [lone] }),
    () => library.paths(adapter, { imports: [lone] }),
    component({ world: lone }),
    component({ worlds: text.replace("store", lone) }),
    component({ worlds: { ...JSON.parse(text), [lone]: 1 } }),
    component({ exports: [lone] }),
    component({ task_hook: lone }),
    component({ adapters: [{ ...given, name: lone }] }),
    component({ adapters: [{ ...given, exports: [lone] }] }),
    () => library.componentPaths(notes(), lone),
    () => library.validate(notes(), lone),
    () => library.validatedModule(notes(), "old-notes", [{ name: lone, params: [], results: [] }]),
  ];
  for (const call of bad) assert.throws(call, BadArgument, String(call));
  // a pair is one character
  assert.equal(faultOf(() => library.trim(adapter, ["\ud83d\ude00"])).missing, "\u{1f600}");
});

test("numbers that 32 bits don't have, and calls that there are not, are refused", () => {
  for (const pageSizeLog2 of [2 ** 32 + 16, 2 ** 32, -1, 16.5, NaN, Infinity, "16", 16n, null]) assert.throws(() => library.trim(adapter, ["size_of"], { pageSizeLog2 }), BadArgument, String(pageSizeLog2));
  for (const number of [2 ** 32 + 2, -1, 1.5, NaN, "2", undefined]) assert.throws(() => library.faultText("trim", number), BadArgument, String(number));
  for (const call of ["nope", "world", "toString", "__proto__", undefined, 0]) assert.throws(() => library.faultText(call, 2), BadArgument, String(call));
  assert.equal(library.faultText("trim", 2), "adapter module does not have export");
});

test("a text where a list is wanted, and what is no module, is a TypeError", () => {
  const bad = [
    () => library.trim(adapter, "size_of"),
    () => library.trim(adapter, encoded("size_of")),
    () => library.trim(adapter, [encoded("size_of")]),
    () => library.trim(adapter, [5]),
    () => library.trim(adapter),
    () => library.why(adapter, "size_of"),
    () => library.paths(adapter, { exports: "size_of" }),
    () => library.paths(adapter, { imports: "env" }),
    () => library.plan(notes({ adapters: "old-notes" })),
    () => library.plan(notes({ adapters: [{ name: "old-notes", wasm: notes().adapters[0].wasm, exports: "is-ready" }] })),
    () => library.plan(notes({ exports: "is-ready" })),
    () => library.validatedModule(notes(), "old-notes", "f"),
    () => library.validatedModule(notes(), "old-notes", [{ name: "f", params: "i32", results: [] }]),
    () => library.componentPaths(notes(), 5),
    () => library.componentPaths(notes()),
    ...["AGFzbQ==", 1000, null, undefined, [0, 0x61, 0x73, 0x6d], {}, new Promise(() => {})].flatMap((it) => [() => library.scan(it), () => library.dedupe(it), () => library.plan(notes({ main: it }))]),
    ...[5, null, undefined, true, () => {}, Symbol("x"), 5n].map((worlds) => () => library.plan(notes({ worlds }))),
    () => library.plan({ ...notes(), resolve: {} }),
  ];
  for (const call of bad) assert.throws(call, TypeError, String(call));
  const { buffer, byteOffset, byteLength } = Uint8Array.from(adapter), wanted = library.scan(adapter);
  for (const it of [buffer, new DataView(buffer), new Uint16Array(buffer, 0, 0)].slice(0, 2)) assert.deepEqual(library.scan(it), wanted);
  assert.deepEqual(library.scan(new Uint8Array(buffer, byteOffset, byteLength)), wanted);
  assert.deepEqual(library.trim(adapter, new Set(["size_of"])), library.trim(adapter, ["size_of"]));
});

test("names keep a byte order mark", () => {
  const name = (it) => [encoded(it).length, ...encoded(it)], mark = "\ufeff", one = [...name(`${mark}m`), ...name(`${mark}f`), 0, 0];
  const imports = [2, ...one, ...one], wasm = Uint8Array.from([0, 0x61, 0x73, 0x6d, 1, 0, 0, 0, 1, 4, 1, 0x60, 0, 0, 2, imports.length, ...imports]);
  assert.deepEqual(library.dedupe(wasm).renames, [{ module: `${mark}m`, original: `${mark}f`, name: `${mark}f [v2]` }]);
  assert.equal(library.scan(wasm).imports[0].name, `${mark}f`);
  assert.equal(faultOf(() => library.trim(adapter, [`${mark}size_of`])).missing, `${mark}size_of`);
});

test("places are the words of the Rust crate", () => {
  const types = { wanted: { params: ["i32", { nullable: true, index: 3 }], results: ["i64"] }, found: { params: [], results: ["externref", "non-null-funcref"] } };
  for (const [place, wanted] of [
    [{ kind: "import", adapter: 'a "b"', module: "m", name: "f", index: 3, types }, 'import "m" "f", wanted (i32, (ref null 3)) -> i64, found () -> (externref, (ref func)), in adapter "a \\"b\\""'],
    [{ kind: "export", adapter: null, name: "f\n", types: null }, 'export "f\\n"'],
    [{ kind: "missing-function", adapter: null, module: "wasi:cli/run@0.2.6", name: "run", types: null }, 'missing "wasi:cli/run@0.2.6" "run"'],
    [{ kind: "section", adapter: "old", id: 12 }, 'data count section, in adapter "old"'],
    [{ kind: "body", function: 7, operator: 2 }, "operator 2 of the body of function 7"],
    [{ kind: "bytes", adapter: null, offset: 57, section: 2 }, "byte 57, in the import section"],
    [{ kind: "bytes", adapter: null, offset: 57, section: 99 }, "byte 57, in section 99"],
    [{ kind: "page-sizes", adapter: "old", own: 1, main: 65536 }, "page size 1, main module's 65536, in adapter \"old\""],
    [{ kind: "function", adapter: null, interface: null, name: "f", abi: "x" }, 'function "f"'],
    [{ kind: "worlds", name: "x", worlds: "abcdefghij".split("") }, 'worlds "a" "b" "c" "d" "e" "f" "g" "h" and 2 more'],
    [{ kind: "imports", key: "x", imports: [] }, "the world imports nothing"],
    [{ kind: "module", adapter: "a" }, ""],
    [{ kind: "toString", a: "\u202e" }, '{"kind":"toString","a":"\\u{202e}"}'],
    [null, ""],
  ]) assert.equal(placeText(place), wanted);
  assert.equal(escaped("a b\u00a0\u200b\x1b[A\ud800"), "a b\\u{a0}\\u{200b}\\u{1b}[A\\u{d800}");
});

test("each export of calls.mjs has its type, with its members", () => {
  const types = readFileSync(new URL("../calls.d.mts", import.meta.url), "utf8");
  const declared = [...types.matchAll(/^export const (\w+):/gm)].map((it) => it[1]);
  assert.deepEqual(declared.sort(), Object.keys(calls).sort());
  for (const name of ["STATUSES", "NUMBERS", "FAULTS", "CALLS"]) {
    const [, keys] = new RegExp(`^export const ${name}: Readonly<\\s*Record<([^>]*?),[^,]*>`, "m").exec(types) ?? assert.fail(name);
    assert.deepEqual([...keys.matchAll(/"(\w+)"/g)].map((it) => it[1]), Object.keys(calls[name]), name);
  }
  const { exports, files } = JSON.parse(readFileSync(new URL("../package.json", import.meta.url), "utf8"));
  assert.deepEqual([exports["./calls.mjs"].types, files.includes("calls.d.mts")], ["./calls.d.mts", true]);
});
