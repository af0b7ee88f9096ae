// The calls of nuigatre.wasm, in browsers and in node: bytes in, bytes and objects out. Their types are in nuigatre.d.mts.
import { ABI, CALLS, FAULTS, NUMBERS, STATUSES } from "./calls.mjs";
import { lineOf } from "./places.mjs";

// a name may begin with U+FEFF, which a decoder leaves out unless it is told not to
const encoder = new TextEncoder(), decoder = new TextDecoder("utf-8", { fatal: true, ignoreBOM: true });
const ANSWER_LENGTH = 32;
/** What is first offered to an answer: the library says where it is too little, and is called again. */
const ROOM = 1 << 16;

/** An error of this module. */
export class NuigatreError extends Error {
  constructor(message, members = {}) {
    super(message);
    this.name = this.constructor.name;
    Object.assign(this, members);
  }
}

/** There is no result, because of a fault in what was passed. */
export class Fault extends NuigatreError {}

/** The call has no result for such arguments. */
export class BadArgument extends NuigatreError {}

/** An allocation failed: the memory is bounded by the limit of `load`, and by 4 GB. */
export class OutOfMemory extends NuigatreError {}

/** The call was stopped in its middle, by a trap. What it had in memory is gone; the next call begins anew. */
export class Stopped extends NuigatreError {}

const kindOf = (it) => (it === null ? "null" : typeof it === "object" ? (it.constructor?.name ?? "an object") : typeof it);
const isBuffer = (it) => /^\[object (?:Shared)?ArrayBuffer\]$/.test(Object.prototype.toString.call(it));
const isBytes = (it) => ArrayBuffer.isView(it) || isBuffer(it);

/** The bytes of a module. Whatever else a Uint8Array can be made of would be other bytes. */
function bytesOf(it) {
  if (it instanceof Uint8Array) return it;
  if (ArrayBuffer.isView(it)) return new Uint8Array(it.buffer, it.byteOffset, it.byteLength);
  if (isBuffer(it)) return new Uint8Array(it);
  throw new TypeError(`a module is a Uint8Array or an ArrayBuffer, and not ${kindOf(it)}`);
}

/** A list; a text is a list of its characters, which nobody wants. */
function listOf(it) {
  if (typeof it === "string" || isBytes(it) || typeof it?.[Symbol.iterator] !== "function") throw new TypeError(`a list is wanted, and not ${kindOf(it)}`);
  return [...it];
}

/** A text as UTF-8. One with half of a surrogate pair has no UTF-8: encoded all the same it would be another text. */
function utf8(call, text) {
  if (typeof text !== "string") throw new TypeError(`a name is a string, and not ${kindOf(text)}`);
  if (/\p{Surrogate}/u.test(text)) throw new BadArgument(`${call}: a text is not Unicode`, { call });
  return encoder.encode(text);
}

const namesOf = (call, it) => listOf(it).map((name) => utf8(call, name));

/** JSON of a value, whose texts are Unicode. */
function jsonOf(call, value) {
  const text = JSON.stringify(value, (key, it) => {
    for (const part of [key, it]) if (typeof part === "string") utf8(call, part);
    return it;
  });
  if (text === undefined) throw new TypeError(`${kindOf(value)} is no JSON`);
  return encoder.encode(text);
}

/** The memory of one call. Pointers are BigInts, also where addresses have 32 bits. */
class Frame {
  #blocks = [];

  constructor(exports) {
    this.exports = exports;
  }

  /** So many bytes: the address. */
  room(length) {
    const at = this.exports.nuigatre_alloc(BigInt(length));
    if (at === 0n) throw new OutOfMemory("out of memory");
    this.#blocks.push(at);
    return Number(at);
  }

  // made anew for each use: a memory that grows ends the views of it
  get bytes() {
    return new Uint8Array(this.exports.memory.buffer);
  }

  get numbers() {
    return new DataView(this.exports.memory.buffer);
  }

  slice(bytes) {
    const at = this.room(bytes.length);
    this.bytes.set(bytes, at);
    return [BigInt(at), BigInt(bytes.length)];
  }

  slices(list) {
    const pairs = list.map((it) => this.slice(it)), at = this.room(16 * pairs.length), numbers = this.numbers;
    pairs.flat().forEach((number, n) => numbers.setBigUint64(at + 8 * n, number, true));
    return [BigInt(at), BigInt(pairs.length)];
  }

  /** The words that are passed for a parameter. */
  words(kind, it) {
    if (kind === "bytes") return this.slice(it);
    if (kind === "slices") return this.slices(it);
    return [kind === "u64" ? it : Number(it)];
  }

  answer(at) {
    const numbers = this.numbers, wide = (offset) => Number(numbers.getBigUint64(at + offset, true));
    const status = numbers.getUint32(at, true), fault = numbers.getUint32(at + 4, true);
    return { status, fault, length: wide(8), moduleLength: wide(16), position: wide(24) };
  }

  release() {
    for (const at of this.#blocks.splice(0)) this.exports.nuigatre_free(at);
  }
}

/** The names and numbers of the renames after a module. */
class Reader {
  constructor(bytes, at) {
    Object.assign(this, { bytes, at });
  }

  number() {
    for (let value = 0, scale = 1; ; scale *= 128) {
      const byte = this.bytes[this.at++];
      value += (byte & 127) * scale;
      if (byte < 128) return value;
    }
  }

  name() {
    const length = this.number();
    return decoder.decode(this.bytes.subarray(this.at, (this.at += length)));
  }
}

/** What a message begins with: the worlds come next. */
const HEAD = encoder.encode('{"resolve":'), COMMA = encoder.encode(",");
const NONE = new Uint8Array(0);
/** The number of the fault of a message that is not JSON. */
const NOT_JSON = FAULTS.message.JSON + 256 * FAULTS.json.NOT_JSON;
/** How a path begins that leads into the worlds of a message, by itself or in the text of a fault. */
const IN_WORLDS = /^(Json: )?resolve(?:\.|: |$|(?=\[))/;

function joined(parts) {
  const whole = new Uint8Array(parts.reduce((sum, it) => sum + it.length, 0));
  parts.reduce((at, it) => (whole.set(it, at), at + it.length), 0);
  return whole;
}

/** The text of worlds. One that is passed stays as it is: JSON.parse would lose members that are there twice, which is a fault. */
function worldsOf(call, it) {
  if (isBytes(it)) return bytesOf(it);
  if (typeof it === "string") return utf8(call, it);
  if (typeof it !== "object" || it === null) throw new TypeError(`worlds are a text, bytes or an object, and not ${kindOf(it)}`);
  return jsonOf(call, it);
}

/** A component as the calls on messages take it: the text of its worlds, the rest of the message, and the bytes of all modules. */
function partsOf(call, { worlds, world, main, adapters = [], exports = null, resolve, ...options }) {
  if (resolve !== undefined) throw new TypeError("the worlds of a component are its member worlds, and not resolve");
  const parts = listOf(adapters).map(({ wasm, exports: keys = [], ...it }) => ({ wasm: bytesOf(wasm), it: { ...it, exports: listOf(keys) } }));
  const modules = [bytesOf(main), ...parts.map((it) => it.wasm)];
  const listed = parts.map(({ wasm, it }) => ({ ...it, length: wasm.length }));
  const rest = { ...options, exports: exports && listOf(exports), world, length: modules[0].length, adapters: listed };
  return { text: worldsOf(call, worlds), rest: jsonOf(call, rest).subarray(1), modules: joined(modules) };
}

const TYPES = { i32: 0x7f, i64: 0x7e, f32: 0x7d, f64: 0x7c, v128: 0x7b, funcref: 0x70, externref: 0x6f };
const leb128 = (it) => (it < 128 ? [it] : [(it & 127) | 128, ...leb128(it >>> 7)]);
const vector = (list) => [...leb128(list.length), ...list.flat()];

/** Functions that are required of an adapter, with their types, as the binary format has them. */
function functionsOf(call, list) {
  const types = (names) => vector(listOf(names).map((it) => (Object.hasOwn(TYPES, it) ? TYPES[it] : 0)));
  return Uint8Array.from(vector(listOf(list).map(({ name, params, results }) => [...vector([...utf8(call, name)]), 0x60, ...types(params), ...types(results)])));
}

/** Whether 32 bits have a number: more of it would be left out. */
const isU32 = (it) => Number.isInteger(it) && it >= 0 && it < 2 ** 32;

const parsed = (bytes) => JSON.parse(decoder.decode(bytes));

/** The library. */
export class Nuigatre {
  #module;
  #exports = null;
  #limit;
  #seed;

  constructor(module, limit, seed) {
    this.#module = module;
    this.#limit = limit;
    this.#seed = seed;
    this.isProved = this.#started().nuigatre_proved() === 1;
  }

  /** Loads the library: of `source`, which is a module, its bytes or a Response; or else nuigatre.wasm beside this file. */
  static async load(source = undefined, { memoryLimit = 2 ** 31, seed = crypto.getRandomValues(new BigUint64Array(2)) } = {}) {
    let given = await source;
    if (given === undefined) {
      const url = new URL("nuigatre.wasm", import.meta.url);
      given = url.protocol === "file:" ? await (await import("node:fs/promises")).readFile(url) : await fetch(url);
    }
    if (typeof Response !== "undefined" && given instanceof Response) {
      if (!given.ok) throw new NuigatreError(`${given.url}: ${given.status} ${given.statusText}`);
      given = await given.arrayBuffer();
    }
    const module = given instanceof WebAssembly.Module ? given : await WebAssembly.compile(given);
    return new Nuigatre(module, memoryLimit, seed);
  }

  /** The compiled module: workers can be given it. */
  get module() {
    return this.#module;
  }

  /** How many bytes the memory has that the calls have taken up to now. */
  get memory() {
    return this.#exports === null ? 0 : this.#exports.memory.buffer.byteLength;
  }

  /** Gives all memory back: the next call begins anew. */
  reset() {
    this.#exports = null;
  }

  #started() {
    if (this.#exports === null) {
      const exports = new WebAssembly.Instance(this.#module).exports, abi = exports.nuigatre_abi();
      if (abi !== ABI) throw new NuigatreError(`nuigatre.wasm has the calls of form ${abi}, and not ${ABI}`);
      exports.nuigatre_limit(BigInt(this.#limit));
      this.#exports = exports;
    }
    return this.#exports;
  }

  /** One call, with so much room for its answer. */
  #once(name, given, room) {
    const { parameters } = CALLS[name], frame = new Frame(this.#started()), call = frame.exports[`nuigatre_${name}`];
    if (call === undefined) throw new NuigatreError(`nuigatre.wasm is older than the call ${name}`, { call: name });
    try {
      const at = frame.room(ANSWER_LENGTH), out = frame.room(room);
      const words = parameters.flatMap(([of, kind]) => (kind === "out" ? [BigInt(out), BigInt(room)] : frame.words(kind, given[of])));
      call(BigInt(at), ...words);
      const answer = frame.answer(at);
      const isWritten = answer.length <= room && answer.status <= STATUSES.FAULT;
      return { ...answer, bytes: isWritten ? frame.bytes.slice(out, out + answer.length) : null };
    } catch (why) {
      // a trap, or no stack for a call: the memory is as it was in the middle of it
      if (!(why instanceof WebAssembly.RuntimeError || why instanceof RangeError)) throw why;
      this.reset();
      throw new Stopped(`${name} was stopped: ${why.message}`, { call: name, cause: why });
    } finally {
      if (this.#exports !== null) frame.release();
    }
  }

  /** A call; again where there was too little room. */
  #call(name, given = {}, room = ROOM) {
    const all = { seed0: this.#seed[0], seed1: this.#seed[1], ...given };
    let answer = this.#once(name, all, room);
    if (answer.length > room) answer = this.#once(name, all, answer.length);
    if (answer.status === STATUSES.FAULT) throw this.#fault(name, all, answer);
    if (answer.status === STATUSES.MEMORY) throw new OutOfMemory("out of memory", { call: name });
    if (answer.status > STATUSES.SAME) throw new BadArgument(`${name} has no result for these arguments`, { call: name });
    return answer;
  }

  #fault(name, given, { fault: number, bytes, position }) {
    const isOnBytes = name in NUMBERS, split = isOnBytes ? 0 : position;
    let text = isOnBytes ? this.faultText(name, number) : decoder.decode(bytes.subarray(0, split));
    const place = bytes.length > split ? parsed(bytes.subarray(split)) : null;
    // a byte or a path of the message is one of the worlds, which are its first member
    if (place?.kind === "json-byte") place.byte -= given.before ?? 0;
    if (place?.kind === "json-path") [text, place.path] = [text.replace(IN_WORLDS, (_, front = "") => front), place.path.replace(IN_WORLDS, "")];
    // of an export that is missing the answer has the position among the names that are passed
    const names = given.required ?? given.exports;
    const isMissing = isOnBytes && names !== undefined && number === FAULTS.gc.MISSING_EXPORT;
    const missing = isMissing ? decoder.decode(names[position]) : null;
    return new Fault(lineOf(text, place, missing), { call: name, number, text, place, missing });
  }

  /** The message of a component, and the bytes of all of its modules. The text of the worlds has to be one JSON value, so that
   *  nothing of it becomes another member of the message: the library is asked, with the text as a message, and says where
   *  this stops being JSON. So there is no second grammar here, and the byte is that of the text. */
  #message(name, component) {
    const { text, rest, modules } = partsOf(name, component);
    const answer = this.#once("world", { seed0: this.#seed[0], seed1: this.#seed[1], message: text, modules: NONE }, ROOM);
    if (answer.status === STATUSES.FAULT && answer.fault === NOT_JSON) throw this.#fault(name, {}, answer);
    if (answer.status === STATUSES.MEMORY) throw new OutOfMemory("out of memory", { call: name });
    return { message: joined([HEAD, text, COMMA, rest]), modules, before: HEAD.length };
  }

  dedupe(given) {
    const wasm = bytesOf(given), { status, bytes, moduleLength } = this.#call("dedupe", { wasm }, wasm.length + ROOM);
    if (status === STATUSES.SAME) return { module: wasm, renames: [] };
    const reader = new Reader(bytes, moduleLength), count = reader.number();
    const renames = Array.from({ length: count }, () => ({ module: reader.name(), original: reader.name(), name: reader.name() }));
    return { module: bytes.slice(0, moduleLength), renames };
  }

  trim(adapter, names, { realloc = null, pageSizeLog2 = 16 } = {}) {
    const wasm = bytesOf(adapter), required = namesOf("trim", names);
    if (!isU32(pageSizeLog2)) throw new BadArgument(`trim: ${String(pageSizeLog2)} is no whole number of 32 bits`, { call: "trim" });
    const given = { wasm, required, has_realloc: realloc !== null, realloc: utf8("trim", realloc ?? ""), page_size_log2: pageSizeLog2 };
    return this.#call("trim", given, wasm.length + ROOM).bytes;
  }

  why(adapter, names) {
    return parsed(this.#call("why", { wasm: bytesOf(adapter), required: namesOf("why", names) }).bytes);
  }

  scan(module) {
    const wasm = bytesOf(module);
    return parsed(this.#call("scan", { wasm }, 2 * wasm.length + ROOM).bytes);
  }

  paths(module, { exports = [], imports = [] } = {}) {
    const given = { wasm: bytesOf(module), exports: namesOf("paths", exports), imports: namesOf("paths", imports) };
    return parsed(this.#call("paths", given).bytes).ways;
  }

  world(component) {
    const given = this.#message("world", component);
    return this.#modules(this.#call("world", given, given.modules.length + 4 * ROOM));
  }

  plan(component) {
    return parsed(this.#call("plan", this.#message("plan", component), ROOM).bytes);
  }

  plannedWorld(component) {
    const given = this.#message("planned_world", component);
    return this.#modules(this.#call("planned_world", given, given.modules.length + 4 * ROOM));
  }

  componentPaths(component, key) {
    const given = { ...this.#message("component_paths", component), key: utf8("component_paths", key) };
    return parsed(this.#call("component_paths", given).bytes);
  }

  componentImports(component) {
    return parsed(this.#call("component_imports", this.#message("component_imports", component)).bytes).imports;
  }

  /** The record and the modules of an answer: the main module comes first, and then the adapters in the record's order. */
  #modules({ bytes, moduleLength }) {
    const record = parsed(bytes.subarray(moduleLength));
    let at = moduleLength - record.adapters.reduce((sum, it) => sum + it.length, 0);
    const main = bytes.slice(0, at);
    const adapters = record.adapters.map(({ name, length }) => ({ name, wasm: bytes.slice(at, (at += length)) }));
    return { record, main, adapters };
  }

  validate(component, adapter = null) {
    const given = { has_adapter: adapter !== null, adapter: utf8("validate", adapter ?? "") };
    this.#call("validate", { ...this.#message("validate", component), ...given });
  }

  validatedModule(component, adapter = null, required = []) {
    const name = "validated_module", given = { has_adapter: adapter !== null, adapter: utf8(name, adapter ?? "") };
    const message = this.#message(name, component);
    return parsed(this.#call("validated_module", { ...message, ...given, required: functionsOf(name, required) }).bytes);
  }

  faultText(call, number) {
    if (!Object.hasOwn(NUMBERS, call)) throw new BadArgument(`${String(call)} is none of ${Object.keys(NUMBERS).join(", ")}`, { call: "fault_text" });
    if (!isU32(number)) throw new BadArgument(`${String(number)} is no whole number of 32 bits`, { call: "fault_text" });
    const answer = this.#once("fault_text", { call: NUMBERS[call], number }, ROOM);
    if (answer.status === STATUSES.MEMORY) throw new OutOfMemory("out of memory", { call: "fault_text" });
    return answer.status === STATUSES.DONE ? decoder.decode(answer.bytes) : null;
  }
}
