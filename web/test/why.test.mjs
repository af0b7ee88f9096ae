// web/why.mjs says in a terminal what the page shows.
import assert from "node:assert/strict";
import { spawnSync } from "node:child_process";
import { mkdtempSync, readFileSync, rmSync, writeFileSync } from "node:fs";
import { tmpdir } from "node:os";
import { join } from "node:path";
import test from "node:test";
import { fileURLToPath } from "node:url";
import { throughTable } from "./components.mjs";

const path = (name) => fileURLToPath(new URL(name, import.meta.url));
const files = ["main.wasm", "adapter.wasm", "notes.json"].map((it) => path(`../../examples/wcplan/${it}`));
const said = (...words) => {
  const { status, stdout, stderr } = spawnSync(process.execPath, [path("../why.mjs"), ...words], { encoding: "utf8" });
  return { status, lines: (stdout + stderr).trimEnd().split("\n") };
};

test("it says what is imported, and why, and saves what is left", () => {
  const folder = mkdtempSync(join(tmpdir(), "nuigatre-why-"));
  try {
    const all = said(...files, "--save", folder);
    assert.deepEqual([all.status, all.lines.slice(3)], [0, ["adapters, trimmed: 317 bytes", "my:notes/store@1.2.0: 4 of 4 functions, through main.wasm, length_of"]]);
    assert.equal(Buffer.compare(readFileSync(join(folder, "old-notes.trimmed.wasm")), readFileSync(path("../../examples/wcplan/trimmed.wasm"))), 0);
    assert.equal(JSON.parse(readFileSync(join(folder, "record.json"))).plan.length, 4);
    const one = said(...files, "--import", "my:notes/store@1.2.0");
    assert.ok(one.lines.includes("  main.wasm → * print → length_of → my:notes/store@1.2.0 summarize"));
    assert.ok(one.lines.includes("cut at * print: each path goes through there"));
    for (const key of ["my:notes/store", "my:notes", "my:notes@1.2.0"]) assert.deepEqual(said(...files, "--import", key).lines, one.lines);
    assert.equal(said(...files.slice(0, 2), "--import", "my:notes/store").lines.filter((it) => it.includes("my:notes/store@1.2.0 ")).length, 6);
    assert.ok(!said(...files, "--import", "my:notes/store@1.2.0", "--without", "length_of").lines.some((it) => it.includes("length_of")));
  } finally {
    rmSync(folder, { recursive: true });
  }
});

test("an export that is not there, or not used, and a key of nothing, are said", () => {
  const last = (...words) => [said(...words).status, said(...words).lines.at(-1)];
  assert.deepEqual(last(...files, "--without", "nosuch"), [1, "why.mjs: no adapter has the export nosuch of --without"]);
  assert.deepEqual(last(...files, "--without", "read_text"), [1, "why.mjs: the export read_text of --without is not used"]);
  assert.deepEqual(last(files[0], "--without", "x"), [1, "why.mjs: no adapter has the export x of --without"]);
  assert.deepEqual(last(...files, "--import", "my:other"), [1, "why.mjs: no import my:other; imports: my:notes/store@1.2.0"]);
});

test("an interface for its types alone is listed, and asked about", () => {
  const folder = mkdtempSync(join(tmpdir(), "nuigatre-why-"));
  try {
    const main = join(folder, "main.wasm"), worlds = path("../wasi-command.json");
    writeFileSync(main, throughTable().main);
    assert.deepEqual(said(main, worlds).lines.slice(2), ["wasi:filesystem/types@0.2.6: 1 of 1 functions, through main.wasm", "wasi:clocks/wall-clock@0.2.6: only its types are used"]);
    const types = said(main, worlds, "--import", "wasi:clocks");
    assert.equal(types.lines.at(-1), "  main.wasm → table 0 → called by func 1 → func 3 → filesystem/types descriptor.stat → wasi:clocks/wall-clock@0.2.6 for its type datetime");
    assert.deepEqual([types.status, said(main, worlds, "--import", "wasi:sockets").lines.at(-1)], [0, "wasi:sockets: in the world but not imported"]);
  } finally {
    rmSync(folder, { recursive: true });
  }
});

test("a file that is no module has its fault", () => {
  const folder = mkdtempSync(join(tmpdir(), "nuigatre-why-"));
  try {
    const given = (name, content) => (writeFileSync(join(folder, name), content), said(join(folder, name)));
    for (const [name, content] of [["x.wit", "package a:b;"], ["empty.wasm", ""], ["noise", Uint8Array.of(1, 0xff)]]) {
      const { status, lines } = given(name, content);
      assert.deepEqual([status, lines[0], lines[1].startsWith(`fault: ${name}: It is neither a WebAssembly module nor `)], [1, `${name}: refused, ${content.length} bytes`, true]);
    }
    const worlds = said(files[2]);
    assert.deepEqual([worlds.status, worlds.lines[1]], [1, "next: Add your program too: notes.json has worlds, and no module is there."]);
  } finally {
    rmSync(folder, { recursive: true });
  }
});

test("what is wrong, and what to do next, is said", () => {
  const folder = mkdtempSync(join(tmpdir(), "nuigatre-why-"));
  try {
    assert.match(said(files[0]).lines.at(-1), /^next: Add the adapter old-notes too/);
    const cut = join(folder, "cut.wasm");
    writeFileSync(cut, readFileSync(files[0]).subarray(0, 50));
    const damaged = said(cut);
    assert.deepEqual([damaged.status, damaged.lines[1].slice(0, 49)], [1, "fault: cut.wasm: The module ends inside an item. "]);
    assert.deepEqual([said(join(folder, "none.wasm")).status, said("--nothing").status, said(files[0], "--import", "a:b/c").status], [1, 2, 1]);
    assert.match(said("--help").lines[0], /^usage: /);
    // a name that would command a terminal
    const name = [3, 0x1b, 0x5b, 0x41], evil = join(folder, "evil.wasm");
    writeFileSync(evil, Uint8Array.from([0, 0x61, 0x73, 0x6d, 1, 0, 0, 0, 1, 4, 1, 0x60, 0, 0, 2, 9, 1, ...name, 1, 0x66, 0, 0]));
    const { lines } = said(evil);
    assert.ok(lines.some((it) => it.includes("\\u{1b}[A")) && !lines.join("").includes("\x1b"), lines.join("\n"));
  } finally {
    rmSync(folder, { recursive: true });
  }
});
