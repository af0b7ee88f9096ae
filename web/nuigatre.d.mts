/** What bytes are passed as. Anything else is a TypeError. */
export type Bytes = Uint8Array | ArrayBuffer | ArrayBufferView;

/** An error of this module. */
export class NuigatreError extends Error {}

/** There is no result, because of a fault in what was passed. Its message is a line of its text and its place, as
 *  `World: Main: MissingWorldExport: missing export "is-ready"`. */
export class Fault extends NuigatreError {
  /** The call, as `trim`. */
  call: string;
  /** The fault's number: one of `FAULTS` in calls.mjs, plus 256 times the number of the fault that it carries. */
  number: number;
  /** The fault's text, as `World: Main: MissingWorldExport`. */
  text: string;
  /** What the fault is about, as the import or the byte; `kind` says what it is. null where nothing is known. Bytes and paths of
   *  JSON are those of the worlds as they were passed. */
  place: Place | null;
  /** Of `trim` and `why` where an export of the adapter is missing: its name; else null. */
  missing: string | null;
}

/** What a fault is about: crates/wc_calls/MODEL.md lists the kinds, and the members of each. */
export interface Place {
  kind: string;
  [member: string]: unknown;
}

/** The call has no result for such arguments: no name, or one that is not Unicode; a number that 32 bits don't have. */
export class BadArgument extends NuigatreError {
  call: string;
}

/** An allocation failed: memory is bounded by `memoryLimit`, and by 4 GB. */
export class OutOfMemory extends NuigatreError {}

/** The call was stopped in its middle, by a trap. The next call begins anew, with fresh memory. */
export class Stopped extends NuigatreError {
  call: string;
}

/** A renamed import. */
export interface Rename {
  module: string;
  original: string;
  name: string;
}

/** An item of a module. */
export interface Item {
  space: "type" | "func" | "table" | "memory" | "global";
  index: number;
}

/** The shortest chains from required exports to imports, as a tree. */
export interface Chains {
  /** All items that are reached. */
  items: Item[];
  /** Of each item the position of the one that first names it; its own position if an export does. */
  finders: number[];
  /** The names of the exports that the first items have. */
  exports: string[];
  /** Of each import of the adapter the position of its item; null if it is not reached. */
  imports: (number | null)[];
}

/** A type of functions. Types of values are `i32`, `i64`, `f32`, `f64`, `v128`, `funcref`, `externref` and the like, or objects. */
export interface FuncType {
  params: ValType[];
  results: ValType[];
}

/** A type of values; an object is one of references to functions of a type of the module. */
export type ValType = string | { nullable: boolean; index: number };

/** An item of a module with its type. */
export type Typed =
  | { kind: "func"; type: FuncType }
  | { kind: "table"; type: { element_type: ValType; table64: boolean; initial: number; maximum: number | null } }
  | { kind: "memory"; type: { memory64: boolean; shared: boolean; initial: number; maximum: number | null; page_size_log2: number | null } }
  | { kind: "global"; type: { content_type: ValType; mutable: boolean } };

/** What a module imports and exports, and how its functions are named. */
export interface Scan {
  /** In the order of the module. */
  imports: ({ module: string; name: string } & Typed)[];
  /** In the order of the module; `index` is that of the item among all of its kind, imported ones first. */
  exports: ({ name: string; index: number } & Typed)[];
  /** The names that name sections give functions, by their indices. */
  function_names: { index: number; name: string }[];
}

/** A step of a path: where it begins, or an item, which the step before it names; `name` is that of a function that has one.
 *  Where imports are asked for, an item has `only`: whether each path to any of them goes through it, and it is none of them. */
export type PathStep =
  | { kind: "export"; adapter: null; name: string }
  | { kind: "start" }
  | { kind: "fills"; space: "table" | "memory"; index: number }
  | { kind: "item"; space: ItemSpace; index: number; name: string | null; only?: boolean };

/** What an item of a path is. */
export type ItemSpace = "type" | "func" | "table" | "memory" | "global" | "elem" | "data";

/** The path to an import: the first step is where it begins, the last is the import's item. */
export interface ImportPath {
  /** The module that it is imported from. */
  interface: string;
  /** Its name there. */
  name: string;
  steps: PathStep[];
}

/** An adapter of a component. */
export interface Adapter {
  /** The name under which the main module imports it. */
  name: string;
  wasm: Bytes;
  /** The keys of the world's exports that it has to export, as `wasi:cli/run@0.2.6`. */
  exports?: string[];
  /** Of a library how it is instantiated. */
  library_info?: unknown;
}

/** A component: its worlds and its modules. */
export interface Component {
  /** The resolved worlds as JSON: what `wasm-tools component wit --json` prints, as a text, its bytes or an object. It is one JSON
   *  value, which nests at most 127 deep. */
  worlds: string | Bytes | object;
  /** The world, by its index or its name. */
  world: number | string;
  main: Bytes;
  adapters?: Adapter[];
  /** The keys of the world's exports that the main module has to export; if missing, all that no adapter has to. */
  exports?: string[] | null;
  /** The canonical options of functions by their names. */
  options?: { name: string; memory?: boolean; realloc?: boolean; string_encoding?: boolean; async?: boolean }[];
  reject_legacy_names?: boolean;
  realloc_via_memory_grow?: boolean;
  task_hook?: string | null;
}

/** What a function that a core module imports needs. */
export interface Use {
  module: { kind: "main" } | { kind: "adapter"; name: string };
  interface: string | null;
  name: string;
  abi: string;
  slot: number | null;
  realloc: string | null;
}

/** The record of a component's world: crates/wc_record/README.md lists its members. */
export interface WorldRecord {
  info: ModuleRecord;
  renames: Rename[];
  adapters: { name: string; length: number; info: ModuleRecord; library_info: unknown }[];
  import_map: { name: string | null; interface: number | null; lowerings: { name: string; abi: string; lowering: { kind: string } }[] }[];
  live_type_imports: { interface: number; types: number[] }[];
  exports_used: { interface: number; uses: number[] }[];
  /** Of each function that the world exports the options with which it is lifted synchronously; asynchronously 8 more. */
  export_options: { interface: number | null; name: string; options: number }[];
  /** Of `plannedWorld` alone. */
  plan?: Use[];
}

/** What a module imports and exports, and what that means. */
export interface ModuleRecord {
  imports: { module: string; instance: { kind: string; names?: { name: string; import: { kind: string } }[] } }[];
  exports: { name: string; export: { kind: string } }[];
}

/** An interface of which a component imports something; `$root` stands for what is the world's own. */
export interface ImportedInterface {
  interface: string;
  /** `main`: the main module imports it itself; `goes`: with exports of adapters; `types`: for its types alone; `stays`. */
  kind: "main" | "goes" | "types" | "stays";
  /** The main module, whose `adapter` is null, with the functions that name an import of it; and adapters, with the exports that
   *  lead there. */
  modules: {
    adapter: string | null;
    imports: number;
    by?: { index: number; name: string | null }[];
    exports?: string[];
    stays?: string[];
    functions?: number;
    bytes?: number;
  }[];
}

/** A component's world, and its modules: the main one with its repeated imports renamed, the adapters trimmed. */
export interface World {
  record: WorldRecord;
  main: Uint8Array;
  adapters: { name: string; wasm: Uint8Array }[];
}

/** A function that is required of an adapter: types are `i32`, `i64`, `f32`, `f64`, `v128`, `funcref` or `externref`. */
export interface RequiredFunction {
  name: string;
  params: string[];
  results: string[];
}

/** How the library is loaded. */
export interface Settings {
  /** How many bytes of memory it takes at most: 2 GB unless it is said, and never more than 4 GB. */
  memoryLimit?: number;
  /** The seed of its maps, which no result depends on: random unless it is said. */
  seed?: BigUint64Array | [bigint, bigint];
}

/** The library. A call that has no result throws one of the errors above. */
export class Nuigatre {
  private constructor();
  /** Loads the library: of a module, its bytes or a Response; or else nuigatre.wasm beside this file. */
  static load(source?: WebAssembly.Module | Bytes | Response | PromiseLike<Response>, settings?: Settings): Promise<Nuigatre>;
  /** Whether the code in it was proved. */
  readonly isProved: boolean;
  /** The compiled module: workers can be given it. */
  readonly module: WebAssembly.Module;
  /** How many bytes its memory has. */
  readonly memory: number;
  /** Gives all memory back: the next call begins anew. */
  reset(): void;
  /** Renames imports, so that no two have one module and one name. */
  dedupe(wasm: Bytes): { module: Uint8Array; renames: Rename[] };
  /** Trims an adapter to what its exports of these names reach. `realloc` is the main module's export, if it has one. */
  trim(adapter: Bytes, required: Iterable<string>, settings?: { realloc?: string | null; pageSizeLog2?: number }): Uint8Array;
  /** Says why an adapter imports what it does, where its exports of these names are required. */
  why(adapter: Bytes, required: Iterable<string>): Chains;
  /** Lists what a module imports and exports, with types, and how its functions are named. */
  scan(module: Bytes): Scan;
  /** The paths to the imports of a module, main modules too, in their order: of each the shortest, and of several the first.
   *  They begin at these exports, or at all, and at the start function; and only where none of these leads to an import, at
   *  what an active segment fills. `imports` ask for imports: `KEY`, the name of a module or of a
   *  package of interfaces, with its version or without, or `KEY=NAME`; without them it is all. An import to which no path
   *  leads has none here. */
  paths(module: Bytes, asked?: { exports?: Iterable<string>; imports?: Iterable<string> }): ImportPath[];
  /** Makes the world of a component. */
  world(component: Component): World;
  /** Makes the plan of a component: what each function that its core modules import needs. */
  plan(component: Component): Use[];
  /** Makes both at once: the record has the plan. */
  plannedWorld(component: Component): World;
  /** Why a component imports what a key asks about: what `wcplan --why KEY --json` prints. The key is `all`, `$root` for what is
   *  the world's own, or an interface, a package, a function or a type that the world imports, with its version or without. */
  componentPaths(component: Component, key: string): unknown;
  /** What a component imports of each interface, with what has to go for it to go: what `wcplan --imports --json` prints. */
  componentImports(component: Component): ImportedInterface[];
  /** Validates the main module of a component, or the adapter of a name. It returns if that is valid. */
  validate(component: Component, adapter?: string | null): void;
  /** Validates the main module of a component, or the adapter of a name for the functions that are required of it, and
   *  returns what it imports and exports. */
  validatedModule(component: Component, adapter?: string | null, required?: Iterable<RequiredFunction>): ModuleRecord;
  /** The text of a fault of a call on bytes by its number; null if there is none. Of another call it throws BadArgument. */
  faultText(call: "dedupe" | "trim" | "why" | "scan" | "paths", number: number): string | null;
}
