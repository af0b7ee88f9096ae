// Large modules and components of ten shapes, to see how much memory a call takes.
import { readFileSync } from "node:fs";
import { call, component, idle } from "./components.mjs";
import { HEADER, all, joined, many, name, number, section, sized, vector } from "./modules.mjs";

const TYPE = section(1, vector([[0x60, 0, 0]]));

const imports = (list) => section(2, vector(list.map(([module, field]) => joined(name(module), name(field), [0, 0]))));
const functions = (count) => section(3, vector(many(count, () => [0])));
const exports = (list) => section(7, vector(list.map(([field, index]) => joined(name(field), 0, number(index)))));
const bodies = (list) => section(10, vector(list.map((it) => sized(joined(0, it, 0x0b)))));
const ONE = imports([["a:b/c", "f"]]);

/** A module of one import, and so many functions, each with such a body after which it calls the next one. */
function chain(count, body = []) {
  const next = (n) => call(n + 1 < count ? n + 2 : 0);
  return joined(HEADER, TYPE, ONE, functions(count), exports([["run", 1]]), bodies(many(count, (n) => joined(body, next(n)))));
}

/** Functions that call all those after them, at most so many. */
function wide(count, calls) {
  const later = (n) => all(many(Math.min(calls, count - n), (k) => call(n + 1 + k < count ? n + 2 + k : 0)));
  return joined(HEADER, TYPE, ONE, functions(count), exports([["run", 1]]), bodies(many(count, later)));
}

/** A program whose functions are all in a table, and which has a large segment of data. */
function program(count, data) {
  const parts = [section(4, [1, 0x70, 0, ...number(count)]), section(5, [1, 0, 1])];
  const elements = section(9, joined(1, 0, [0x41, 0, 0x0b], vector(many(count, (n) => number(n + 1)))));
  const bytes = section(11, joined(1, 0, [0x41, 0, 0x0b], sized(new Uint8Array(data))));
  return joined(HEADER, TYPE, ONE, functions(count), ...parts, elements, bodies(many(count, (n) => call(n % 3 ? n : 0))), bytes);
}

const named = (count) => section(0, joined(name("name"), 1, sized(vector(many(count, (n) => joined(number(n), name(`a function of the number ${n}`)))))));

const worlds = readFileSync(new URL("../wasi-command.json", import.meta.url));

/** Each shape: what it is, the call of the library, and what it is called with. */
export const SHAPES = [
  ["200 functions of 4,000 bytes", "paths", () => [chain(200, idle(1333))]],
  ["a function of 4 MB", "paths", () => [chain(1, idle(1333333))]],
  ["a chain of 100,000 functions", "trim", () => [chain(100000), ["run"]]],
  ["functions that call 100 others", "why", () => [wide(20000, 100), ["run"]]],
  ["20,000 imports", "scan", () => [joined(HEADER, TYPE, imports(many(20000, (n) => [`a:b/c${n % 100}`, `f${n}`])))]],
  ["20,000 imports of one name", "dedupe", () => [joined(HEADER, TYPE, imports(many(20000, () => ["a:b/c", "f"])))]],
  ["a table of 50,000 functions, and 2 MB of data", "paths", () => [program(50000, 2 * 2 ** 20)]],
  ["50,000 names of functions", "scan", () => [joined(chain(50000), named(50000))]],
  ["a program of 2,000 functions of 2,000 bytes", "planned_world", () => [{ ...component(2000, idle(666)), worlds }]],
  ["a chain of 50,000 functions in a program", "component_paths", () => [{ ...component(50000), worlds }, "all"]],
];
