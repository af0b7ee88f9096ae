// A module in the place of nuigatre.wasm, whose calls trap, but for `why`, which says that there is no memory.
import { ABI, CALLS, STATUSES } from "../calls.mjs";

const I32 = 0x7f, I64 = 0x7e, END = 0x0b, UNREACHABLE = 0x00;
const WIDTHS = { u64: [I64], u32: [I32], bool: [I32], bytes: [I64, I64], slices: [I64, I64], out: [I64, I64] };
const number = (it) => (it < 128 ? [it] : [(it & 127) | 128, ...number(it >>> 7)]);
const vector = (list) => [...number(list.length), ...list.flat()];
const section = (id, content) => [id, ...number(content.length), ...content];
const name = (text) => vector([...new TextEncoder().encode(text)]);
/** A constant of 32 or 64 bits, below 64 or as the bytes of its number. */
const constant = (code, ...bytes) => [code, ...bytes];
const STORE_STATUS = [0x20, 0, 0xa7, 0x41, STATUSES.MEMORY, 0x36, 2, 0];

export function stub({ abi = ABI } = {}) {
  const calls = Object.entries(CALLS).map(([of, { parameters, result }]) => {
    const isAnswer = result === "answer", types = parameters.flatMap(([, kind]) => WIDTHS[kind]);
    const code = of === "abi" ? constant(0x41, abi) : of === "why" ? STORE_STATUS : [UNREACHABLE];
    return { symbol: `nuigatre_${of}`, parameters: isAnswer ? [I64, ...types] : types, results: isAnswer ? [] : [I32], code };
  });
  const functions = [
    ...calls,
    { symbol: "nuigatre_proved", parameters: [], results: [I32], code: constant(0x41, 0) },
    { symbol: "nuigatre_limit", parameters: [I64], results: [], code: [] },
    { symbol: "nuigatre_free", parameters: [I64], results: [], code: [] },
    // every block is at 32
    { symbol: "nuigatre_alloc", parameters: [I64], results: [I64], code: constant(0x42, 32) },
  ];
  const exports = functions.map((it, n) => [...name(it.symbol), 0, ...number(n)]);
  return Uint8Array.from([
    0, 0x61, 0x73, 0x6d, 1, 0, 0, 0,
    ...section(1, vector(functions.map((it) => [0x60, ...vector(it.parameters), ...vector(it.results)]))),
    ...section(3, vector(functions.map((_, n) => number(n)))),
    ...section(5, vector([[0, 4]])),
    ...section(7, vector([...exports, [...name("memory"), 2, 0]])),
    ...section(10, vector(functions.map((it) => vector([0, ...it.code, END])))),
  ]);
}
