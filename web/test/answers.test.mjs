// What the page shows, without a page: of the library's answers, and cut to what a page can show.
import assert from "node:assert/strict";
import { readFileSync } from "node:fs";
import test from "node:test";
import { asksFor, compute, downloadsOf, faultView, readFile, rolesOf, view, worldsIn } from "../answers.mjs";
import { MOST } from "../boxes.mjs";
import { FAULTS } from "../calls.mjs";
import { faultsOf, HINTS, hintOf } from "../hints.mjs";
import { Nuigatre } from "../nuigatre.mjs";
import { damaged, numbers } from "./damage.mjs";
import { forest, pathOf, readable, shortName } from "../picture.mjs";

const library = await Nuigatre.load();
const example = (name) => readFileSync(new URL("../../examples/" + name, import.meta.url));
const file = (name, bytes = example("wcplan/" + name)) => readFile(library, name, new Uint8Array(bytes));
const files = () => ["main.wasm", "adapter.wasm", "notes.json"].map((it) => file(it));
const shown = (list, state = {}, over = library) => view(compute(over, list, state), state);
const paths = ({ picture }) => forest(picture.boxes).all.filter((it) => it.kind === "import").map(pathOf);
const header = [0, 0x61, 0x73, 0x6d, 1, 0, 0, 0];

test("roles and names are what modules import of each other, or what is chosen", () => {
  const of = (list, state) => {
    const { main, adapters, worlds } = rolesOf(list, state);
    return [main?.name, adapters.map((it) => it.name), worlds?.name];
  };
  assert.deepEqual(of(files()), ["main.wasm", ["old-notes"], "notes.json"]);
  assert.deepEqual(of(files().reverse()), ["main.wasm", ["old-notes"], "notes.json"]);
  assert.deepEqual(of(files(), { names: { "adapter.wasm": "other" } }), ["main.wasm", ["other"], "notes.json"]);
  assert.deepEqual(of(files(), { main: "adapter.wasm" }), ["adapter.wasm", ["main"], "notes.json"]);
  assert.deepEqual(of([file("old-notes.v2.wasm", example("wcplan/adapter.wasm")), files()[0]]), ["main.wasm", ["old-notes"], undefined]);
  assert.deepEqual(of([]), [undefined, [], undefined]);
});

test("with worlds there are exact sizes and a plan, and an adapter is found for each export that the main module lacks", () => {
  const found = shown(files(), { picked: "my:notes/store@1.2.0" });
  assert.deepEqual([found.faults, found.notes], [[], []]);
  // the largest world, which includes the others
  assert.deepEqual([found.world, found.worlds], [2, ["guest", "old-notes", "app"]]);
  assert.deepEqual([found.numbers.before, found.numbers.after, found.numbers.lowerings], [512, 317, 4]);
  assert.deepEqual(found.switches[0].list.map((it) => it.name), ["length_of", "cabi_import_realloc", "is-ready"]);
  assert.match(found.picked.says, /^main\.wasm imports it itself, in print, and length_of of an adapter reaches it too\./);
  assert.ok(paths(found).includes("main.wasm → * print → length_of → my:notes/store@1.2.0 summarize"));
  assert.deepEqual(found.plan.list.map((it) => it.slot), [0, 1, 2, 3]);
  assert.deepEqual(worldsIn("{"), []);
});

test("without worlds what the main module imports is used, and other core modules are no interfaces", () => {
  const found = shown(files().slice(0, 2));
  assert.deepEqual(found.switches[0].list.map((it) => it.name), ["length_of"]);
  assert.deepEqual([found.plan, found.interfaces.map((it) => it.key)], [null, ["my:notes/store@1.2.0"]]);
});

test("functions of an adapter have their names", () => {
  const name = (text) => [text.length, ...Buffer.from(text)], section = (id, ...content) => [id, content.length, ...content], type = section(1, 1, 0x60, 0, 0);
  // `run` calls `go`, which calls the import
  const code = section(10, 2, 4, 0, 0x10, 0, 0x0b, 4, 0, 0x10, 1, 0x0b), names = section(0, ...name("name"), 1, 5, 1, 1, ...name("go"));
  const adapter = [...header, ...type, ...section(2, 1, ...name("a:b/c"), ...name("f"), 0, 0), ...section(3, 2, 0, 0), ...section(7, 1, ...name("run"), 0, 2), ...code, ...names];
  const found = shown([file("app.wasm", [...header, ...type, ...section(2, 1, ...name("old"), ...name("run"), 0, 0)]), file("old.wasm", adapter)]);
  assert.deepEqual(paths(found), ["app.wasm → run → go → a:b/c f"]);
  assert.equal(found.picture.boxes.find((it) => it.kind === "item").title, "func 1, go of old");
});

test("an export that is taken away takes its imports and bytes with it, and another brings its own", () => {
  const off = (...list) => ({ switched: Object.fromEntries(list.map((it) => [`old-notes ${it}`, false])) });
  const all = shown(files()), without = shown(files(), off("length_of"));
  assert.ok(without.numbers.after < all.numbers.after && without.numbers.functions < all.numbers.functions);
  assert.ok(!paths(without).some((it) => it.includes("length_of")));
  assert.equal(shown(files(), off("length_of", "is-ready", "cabi_import_realloc")).numbers.after, 0);
  const [{ others }] = all.switches, more = shown(files(), { switched: { [others.list[0].key]: true }, picked: "my:notes/store@1.2.0" });
  assert.ok(!others.list[0].isOn && more.switches[0].others.list[0].isOn && more.numbers.after > all.numbers.after);
});

test("what can be saved has the bytes of the examples", () => {
  const kept = downloadsOf(compute(library, files()));
  assert.deepEqual(kept.map((it) => it.name), ["old-notes.trimmed.wasm", "record.json"]);
  assert.equal(Buffer.compare(kept[0].bytes, example("wcplan/trimmed.wasm")), 0);
  assert.equal(JSON.parse(new TextDecoder().decode(kept[1].bytes)).plan.length, 4);
});

test("a search finds interfaces and functions", () => {
  assert.deepEqual(["SUMMARIZE", "store", "other"].map((find) => shown(files(), { find }).interfaces.length), [1, 1, 0]);
});

test("what is to be done next is said: the program, an adapter or its name, the worlds", () => {
  const [main, adapter, worlds] = files(), notes = (list, state) => shown(list, state).notes.map((it) => it.text);
  assert.deepEqual(notes([main, adapter, worlds]), []);
  assert.match(notes([main])[0], /^Add the adapter old-notes too, if it is one: main\.wasm imports 1 function /);
  assert.match(notes([main, adapter])[0], /^Add the worlds/);
  assert.match(notes([main, adapter], { names: { "adapter.wasm": "other" } })[1], /^Give adapter\.wasm the name .* but of old-notes\./);
  assert.match(notes([adapter])[0], /^Add your program too/);
  assert.match(notes([main, worlds]).at(-1), /^Mend the fault above first/);
  assert.match(notes([file("empty.wasm", header)])[0], /^Nothing is to be done/);
  const name = (text) => [text.length, ...Buffer.from(text)], imported = [1, ...name("wasi_snapshot_preview1"), ...name("f"), 0, 0];
  assert.match(notes([file("app.wasm", [...header, 1, 4, 1, 0x60, 0, 0, 2, imported.length, ...imported])])[0], /It comes with Wasmtime’s releases/);
});

test("faults say what they mean, in which file and where, and what to do, and leave the rest", () => {
  const refused = shown([files()[0], file("adapter.wasm", example("wcplan/adapter.wasm").subarray(0, 100))]);
  assert.equal(refused.faults[0].title, "adapter.wasm: The module ends inside an item.");
  assert.match(refused.faults[0].where, /^byte 100$/);
  assert.deepEqual([refused.faults[0].text, refused.main], ["Truncated", "main.wasm"]);
  const component = shown([file("app.wasm", [0, 0x61, 0x73, 0x6d, 0x0d, 0, 1, 0])]);
  assert.deepEqual([component.faults[0].text, component.main], ["Component", null]);
  const wrong = shown([...files().slice(0, 2), file("notes.json", Buffer.from("{"))]);
  assert.deepEqual([wrong.faults[0].text, wrong.faults[0].where], ["Json: not JSON", "byte 1"]);
  assert.match(wrong.faults[0].title, /^notes\.json: /);
  assert.match(wrong.faults[0].hint, /wasm-tools/);
  assert.deepEqual(wrong.interfaces.map((it) => it.key), ["my:notes/store@1.2.0"]);
  const lacking = shown([files()[0], files()[2]]).faults[0];
  assert.deepEqual([lacking.title.split(":")[0], lacking.where], ["main.wasm", 'import "old-notes" "length_of"']);
  assert.equal(faultView(Object.assign(new Error("x"), { place: null })).where, "");
  const json = shown([...files().slice(0, 2), file("notes.json", Buffer.from('{"worlds":5}'))]).faults[0];
  assert.deepEqual([json.text, json.where], ["Json: worlds: not a list", "worlds"]);
});

test("files that are no module have their fault, also where there is no program", () => {
  const text = (name, content) => file(name, Buffer.from(content)), [, , worlds] = files();
  for (const [given, title] of [
    [text("empty.wasm", ""), "empty.wasm: It is neither a WebAssembly module nor JSON."],
    [text("x.wit", "package a:b; world x {}"), "x.wit: It is neither a WebAssembly module nor JSON."],
    [file("noise", Uint8Array.of(0xff, 0xfe, 1)), "noise: It is neither a WebAssembly module nor a text in UTF-8."],
    [text("x.json", '{"worlds":[]}'), "x.json: The worlds lack a member."],
    [text("mark.json", "\ufeff{}"), "mark.json: It is neither a WebAssembly module nor JSON."],
  ]) {
    const found = shown([given]);
    assert.deepEqual([found.faults.map((it) => it.title), found.notes, found.files[0].role], [[title], [], "refused"]);
    assert.ok(found.faults[0].hint && found.faults[0].text);
    // beside a program too
    assert.equal(shown([files()[0], given]).faults.at(-1).title, title);
  }
  const alone = shown([worlds]);
  assert.deepEqual([alone.faults, alone.notes.map((it) => it.text), alone.files[0].role], [[], ["Add your program too: notes.json has worlds, and no module is there."], "worlds"]);
  const two = shown([worlds, text("other.json", "{}")]);
  assert.deepEqual(two.faults.map((it) => [it.title, it.hint]), [["other.json: it is no module, and the worlds are those of notes.json", "Take one of the two away."]]);
  assert.equal(two.notes.length, 1);
});

test("a key asks about a module by its name or its package, with its version or without", () => {
  const asked = (key) => ["wasi:io/error@0.2.6", "wasi:io/error", "wasi:io/error@0.3.0-rc.1", "env", "a:b"].filter((it) => asksFor(key, it));
  assert.deepEqual(asked("wasi:io/error"), ["wasi:io/error@0.2.6", "wasi:io/error", "wasi:io/error@0.3.0-rc.1"]);
  assert.deepEqual(asked("wasi:io/error@0.2.6"), ["wasi:io/error@0.2.6"]);
  assert.deepEqual(asked("wasi:io@0.2.6"), ["wasi:io/error@0.2.6"]);
  assert.deepEqual(asked("wasi:io").length, 3);
  assert.deepEqual(["env", "a:b", "a", "", "wasi:i"].map((it) => asked(it).length), [1, 1, 0, 0, 0]);
});

test("each fault has what it means and what to do", () => {
  for (const [of, names] of Object.entries(FAULTS)) for (const name of Object.keys(names)) assert.ok(HINTS[of]?.[name]?.[0].endsWith("."), `${of} ${name}`);
  const { message, world, validate, read } = FAULTS;
  const number = message.WORLD + 256 * (world.MAIN + 256 * (validate.READ + 256 * read.TRUNCATED));
  assert.deepEqual(faultsOf("world", number), [["message", "WORLD"], ["world", "MAIN"], ["validate", "READ"], ["read", "TRUNCATED"]]);
  assert.deepEqual(faultsOf("world", FAULTS.message.JSON + 256 * FAULTS.json.WRONG).at(-1), ["problem", "MISSING"]);
  assert.deepEqual(faultsOf("component_paths", number).length, 4);
  assert.deepEqual(faultsOf("component_paths", FAULTS.component.WAYS + 256 * FAULTS.gc.TOO_LARGE), [["component", "WAYS"], ["gc", "TOO_LARGE"]]);
  assert.deepEqual(faultsOf("component_paths", FAULTS.component.UNKNOWN_IMPORT), [["component", "UNKNOWN_IMPORT"]]);
  assert.equal(hintOf({ call: "scan", number: read.COMPONENT }).means, HINTS.read.COMPONENT[0]);
  assert.deepEqual(hintOf({ call: "scan", number: 99999 }), { means: "", hint: "" });
});

test("names that Rust mangled are read, and others left as they are", () => {
  const part = (text) => text.length + text, drop = `_ZN${part("_$LT$a..b..Error$u20$as$u20$a.._rt..WasmResource$GT$")}4drop17he7fd0afb26170df8E`;
  assert.deepEqual([readable(drop), shortName(drop)], ["<a::b::Error as a::_rt::WasmResource>::drop", "drop"]);
  assert.deepEqual([readable("_ZN1a2bc1d17h0123456789abcdefE"), shortName("_ZN1a2bc1d17h0123456789abcdefE")], ["a::bc::d", "bc::d"]);
  for (const name of ["", "main", "_ZN", "_ZNE", "_ZN9aE", "_ZN1aEv", "_ZN1a0E", "std::move"]) assert.ok(typeof shortName(name) === "string" && readable(name).length <= name.length);
});

/** A main module: function 0 is `length_of` of `old-notes`, then come functions that call the next one and so it at last. */
function program(calls, parts, names) {
  const name = (text) => [text.length, ...Buffer.from(text)], section = (id, ...content) => [id, content.length, ...content];
  const body = (to) => [4, 0, 0x10, to, 0x0b], named = names.flatMap((it, n) => (it ? [[n + 1, ...name(it)]] : []));
  const list = [named.length, ...named.flat()];
  return file("main.wasm", [
    ...header, ...section(1, 1, 0x60, 0, 0), ...section(2, 1, ...name("old-notes"), ...name("length_of"), 0, 0),
    ...section(3, calls.length, ...calls.map(() => 0)), ...parts({ name, section }), ...section(10, calls.length, ...calls.flatMap(body)),
    ...section(0, ...name("name"), 1, list.length, ...list),
  ]);
}

test("the path through the main module begins at an export, its start function or a table", () => {
  const path = (main) => paths(shown([main, files()[1]])).find((it) => it.endsWith("summarize"));
  const end = "length_of → my:notes/store@1.2.0 summarize";
  const exported = program([2, 0], ({ name, section }) => section(7, 1, ...name("go"), 0, 1), ["go's own", null]);
  assert.equal(path(exported), `main.wasm → go → func 2 → ${end}`);
  const started = program([2, 0], ({ section }) => section(8, 1), ["init", "next"]);
  assert.equal(path(started), `main.wasm → start function → init → next → ${end}`);
  const filled = program([2, 0], ({ section }) => [...section(4, 1, 0x70, 0, 1), ...section(9, 1, 0, 0x41, 0, 0x0b, 1, 1)], ["close", "length"]);
  assert.equal(path(filled), `main.wasm → table 0 → close → length → ${end}`);
  assert.equal(path(program([1], () => [], ["unused"])), `main.wasm → ${end}`);
});

test("where the paths through the main module can't be followed, that is said, and the others are drawn", () => {
  const over = new Proxy(library, { get: (of, name) => (name === "paths" ? () => library.scan(new Uint8Array(3)) : typeof of[name] === "function" ? of[name].bind(of) : of[name]) });
  const refused = shown(files(), {}, over);
  assert.equal(paths(refused).length, 6);
  assert.match(refused.notes[0].text, /^For paths through main\.wasm too, .* no WebAssembly module\.$/);
});

test("2,000 damaged sets of files are shown, with their faults", () => {
  const drawn = numbers(4), whole = files();
  let count = 0;
  for (let n = 0; n < 2000; n++) {
    const found = shown(whole.map((it, at) => (at === n % 3 || drawn(4) === 0 ? readFile(library, it.name, damaged(it.bytes, drawn)) : it)));
    assert.ok(found.faults.every((it) => it.title.length > 0));
    count += found.faults.length > 0 ? 1 : 0;
  }
  assert.ok(count > 500, `${count} have faults`);
});

test("no more is shown than a page can show", () => {
  const number = (it) => (it < 128 ? [it] : [(it & 127) | 128, ...number(it >>> 7)]);
  const name = (text) => [text.length, ...Buffer.from(text)];
  const imports = Array.from({ length: 3000 }, (_, n) => [...name(`a:b/c${n}`), ...name("f"), 0, 0]).flat();
  const content = [...number(3000), ...imports];
  const main = file("many.wasm", [...header, 1, 4, 1, 0x60, 0, 0, 2, ...number(content.length), ...content]);
  const found = shown([main]);
  assert.deepEqual([found.interfaces.length, found.moreInterfaces], [MOST.interfaces, 3000 - MOST.interfaces]);
  assert.equal(paths(found).length, MOST.ends);
  assert.equal(found.picture.more, 3000 - MOST.ends);
  assert.equal(shown([main], { find: "c2999" }).interfaces.length, 1);
});
