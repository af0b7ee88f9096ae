// Programs of WASI's commands that tests make, in browsers too: each calls `[method]descriptor.stat`, whose types are of two
// interfaces. Their worlds are wasi-command.json.
import { HEADER, all, joined, many, name, number, section, sized, vector } from "./modules.mjs";

const STAT = ["wasi:filesystem/types@0.2.6", "[method]descriptor.stat", 1];
const bodies = (list) => section(10, vector(list.map((it) => sized(joined(0, it, 0x0b)))));
const ZERO = [0x41, 0];

export const call = (index) => joined(0x10, number(index));
/** Code that does nothing: `i32.const 0; drop`, so often. */
export const idle = (count) => new Uint8Array(3 * count).map((_, n) => [0x41, 0, 0x1a][n % 3]);

const TYPES = section(1, vector([[0x60, 0, 1, 0x7f], [0x60, 2, 0x7f, 0x7f, 0], [0x60, 4, 0x7f, 0x7f, 0x7f, 0x7f, 1, 0x7f], [0x60, 0, 0]]));
const importSection = (list) => section(2, vector(list.map(([module, field, type]) => joined(name(module), name(field), [0, type]))));
const exportSection = (list) => section(7, vector(list.map(([field, kind, index]) => joined(name(field), [kind], number(index)))));

/** A program: after its imports come `run`, a realloc, and then others, each with its type, and its code. */
function program(imports, run, others, [table, elements] = [[], []]) {
  const first = imports.length, indices = section(3, vector([[0], [2], ...others.map((it) => [it.type])]));
  const out = exportSection([["wasi:cli/run@0.2.6#run", 0, first], ["cabi_realloc", 0, first + 1], ["memory", 2, 0]]);
  const main = all([HEADER, TYPES, importSection(imports), indices, table, section(5, [1, 0, 1]), out, elements, bodies([run, ZERO, ...others.map((it) => it.code)])]);
  return { world: "wasi:cli/command", main };
}

const callStat = joined(ZERO, ZERO, call(0));

/** A program whose `run` calls the import, and the first of so many functions, each of which has such code and calls the next. */
export function component(count = 0, body = []) {
  const others = many(count, (n) => ({ type: 0, code: joined(body, n + 1 < count ? call(n + 4) : ZERO) }));
  return program([STAT], joined(count ? joined(call(3), 0x1a) : [], callStat, ZERO), others);
}

/** A program whose `run` calls through a table, in which the function is that calls the import. */
export function throughTable() {
  const table = section(4, [1, 0x70, 0, 1]), elements = section(9, joined(1, 0, ZERO, 0x0b, vector([number(3)])));
  return program([STAT], joined(ZERO, [0x11, 3, 0], ZERO), [{ type: 3, code: callStat }], [table, elements]);
}

/** A program that calls two functions of an adapter, of which the first calls the import. */
export function throughAdapter([f, g] = ["f", "g"]) {
  const out = exportSection([[f, 0, 1], [g, 0, 2]]), code = bodies([callStat, []]);
  const wasm = all([HEADER, TYPES, importSection([STAT]), section(3, vector([[3], [3]])), out, code]);
  const adapters = [{ name: "old", wasm, exports: [] }];
  return { ...program([["old", f, 3], ["old", g, 3]], joined(call(0), call(1), ZERO), []), adapters };
}
