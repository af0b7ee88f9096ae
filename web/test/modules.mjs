// The binary format of modules, for modules that tests make, in browsers too.
const encoder = new TextEncoder();
/** A number in LEB128. */
export const number = (it) => (it < 128 ? [it] : [(it & 127) | 128, ...number(Math.floor(it / 128))]);
/** Parts one after another: bytes, or lists of them. */
export function all(parts) {
  const list = parts.map((it) => (typeof it === "number" ? [it] : it)), whole = new Uint8Array(list.reduce((sum, it) => sum + it.length, 0));
  list.reduce((at, it) => (whole.set(it, at), at + it.length), 0);
  return whole;
}
export const joined = (...parts) => all(parts);
export const name = (text) => joined(number(encoder.encode(text).length), encoder.encode(text));
export const vector = (items) => all([number(items.length), ...items]);
export const sized = (bytes) => joined(number(bytes.length), bytes);
export const section = (id, content) => joined(id, sized(content));
export const many = (count, of) => Array.from({ length: count }, (_, n) => of(n));
export const HEADER = [0, 0x61, 0x73, 0x6d, 1, 0, 0, 0];
