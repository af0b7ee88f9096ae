// What a fault means, and what to do about it, in words. The numbers of faults are those of calls.mjs.
import { FAULTS } from "./calls.mjs";

/** The faults that carry another one, with the enum of that. */
const CARRIED = {
  dedupe: { READ: "read" },
  gc: { READ: "read" },
  json: { WRONG: "problem" },
  validate: { READ: "read" },
  world: { MAIN: "validate", ADAPTER: "validate", TRIM: "gc", MINIMIZED: "validate" },
  message: { JSON: "json", RESOLVE: "resolve", DEDUPE: "dedupe", ENCODER: "encoder", WORLD: "world", PLAN: "plan" },
  component: { WAYS: "gc" },
};
/** The enum of the faults of each call; those of a component have `message`, or else `component`. */
const ENUMS = { dedupe: "dedupe", trim: "gc", why: "gc", paths: "gc", scan: "read" };

const DAMAGED = "Build or download it again; wasm-validate of wabt says more.";
const PROPOSALS = "Build it without exceptions, tags and garbage collection, which are not read here.";
const TOOL = "What made the file has a bug: wasm-validate of wabt says more.";
const WORLDS = "Print the worlds anew with wasm-tools component wit --json.";
const BINDINGS = "Make the bindings anew of the worlds that are given here, and build again.";
const VERSION = "Add the adapter of that name, or the worlds that have the interface, in the version for which the module was built.";
const EXPORTS = "Export it from the main module, add the adapter that exports it, or choose another world.";
const APART = "Ask wcwhy FILE, which takes it apart; wcwhy FILE --core N --out OUT writes its core module N.";
const WIT = "Of WIT text give the worlds, as wasm-tools component wit --json prints them.";
const ROOT = "Add the function to the world, or import it of its interface.";

/** Of each fault what it means, and what to do. */
export const HINTS = {
  read: {
    NOT_WASM: ["It is no WebAssembly module.", `Assemble text (.wat) first, for example with wat2wasm. ${WIT}`],
    COMPONENT: ["It is a component, and not a core module.", APART],
    TRUNCATED: ["The module ends inside an item.", DAMAGED],
    BAD_NUMBER: ["A number in the module has too many bytes, or is too large.", DAMAGED],
    BAD_NAME: ["A name in the module is not UTF-8.", DAMAGED],
    SECTION_ORDER: ["A section of the module is there twice, or too late.", TOOL],
    SECTION_SIZE: ["A section of the module has more bytes than its items.", DAMAGED],
    UNKNOWN_SECTION: ["The module has a section that is not known.", PROPOSALS],
    BAD_TYPE: ["The module has a type that is not known.", PROPOSALS],
    BAD_LIMITS: ["A table or a memory of the module has bounds that none may have.", PROPOSALS],
    BAD_INDEX: ["The module names a type, an item or a function that is not there.", TOOL],
    DUPLICATE_EXPORT: ["Two exports of the module have one name.", TOOL],
    BAD_INITIALISER: ["An initial value in the module is not constant, or of another type.", PROPOSALS],
    COUNT_MISMATCH: ["The module has more functions than bodies, or fewer.", TOOL],
    UNKNOWN_OPERATOR: ["The module has an instruction that is not known.", PROPOSALS],
    BAD_NESTING: ["Blocks in a function of the module do not nest.", TOOL],
    BAD_START: ["The start function of the module has parameters or results.", TOOL],
    TOO_LARGE: ["The module has more items than can be counted in 32 bits.", TOOL],
  },
  dedupe: { READ: ["The module can't be read.", DAMAGED], TOO_LARGE: ["The renamed module would be too large for its format.", "Link it with fewer imports."] },
  gc: {
    READ: ["The adapter can't be read.", DAMAGED],
    MISSING_EXPORT: ["The adapter lacks an export that is used of it.", "Take the adapter for which the main module was built."],
    UNSUPPORTED_SECTION: ["The file has static data, a table of functions or a start function, which no adapter has.", "If it is your program, choose “Make it main”. Else build the adapter without them."],
    LIVE_BODY: ["A function that is used has an instruction that can't be followed.", PROPOSALS],
    SEVERAL_NAMED: ["The adapter has two stack pointers, or two states of their allocation.", "Link it once, so that one global has the name __stack_pointer."],
    LIVE_TABLE: ["A function that is used calls through a table.", "Build the adapter without calls of function pointers."],
    SEVERAL_MEMORIES: ["The adapter uses two memories.", "Build it for one."],
    LOCAL_MEMORY: ["The adapter has a memory of its own.", "Link it with wasm-ld --import-memory."],
    REALLOC_TYPE: ["The adapter imports a realloc of another type.", "It needs four parameters and a result, all i32."],
    REALLOC_MEMORY: ["There is no memory that the adapter's realloc could grow.", "Export cabi_realloc from the main module."],
    TOO_LARGE: ["The trimmed adapter would be too large for its format.", "Nothing helps but a smaller adapter."],
  },
  problem: {
    MISSING: ["The worlds lack a member.", WORLDS],
    NOT_AN_OBJECT: ["Something in the worlds has to be an object.", WORLDS],
    NOT_ONE_MEMBER: ["An object in the worlds has to have one member.", WORLDS],
    NOT_A_LIST: ["Something in the worlds has to be a list.", WORLDS],
    NOT_A_TEXT: ["Something in the worlds has to be a text.", WORLDS],
    NOT_AN_INDEX: ["Something in the worlds has to be the number of an item that is there.", WORLDS],
    UNKNOWN: ["The worlds have a kind that is not known.", WORLDS],
    LEFT_OUT: ["The worlds have a map, or a list of fixed length, which are not read here.", "Use a list in their place."],
    OUTDATED: ["The worlds are in an older form.", "Print them with wasm-tools 0.227 or newer."],
    NOT_A_PACKAGE_NAME: ["Something in the worlds has to be the name of a package.", WORLDS],
    NOT_A_BOOL: ["Something in the worlds has to be true or false.", WORLDS],
  },
  json: {
    NOT_JSON: ["It is neither a WebAssembly module nor JSON.", "Give worlds as wasm-tools component wit --json FOLDER prints them, of a folder of WIT text; and a module in WebAssembly's binary format, and not as text."],
    REPEATED_MEMBER: ["An object in the worlds has two members of one name.", WORLDS],
    WRONG: ["The JSON is not that of worlds.", WORLDS],
  },
  resolve: {
    ID_RANGE: ["Something in the worlds has a number that nothing has.", WORLDS],
    CYCLE: ["A type in the worlds is made of itself.", WORLDS],
    UNNAMED: ["An interface or a type in the worlds lacks its name or its package.", WORLDS],
    KEY_MISMATCH: ["Something in the worlds is listed under another name than its own.", WORLDS],
    NAME_CLASH: ["Two things in the worlds have one name.", WORLDS],
    BAD_CHARACTER: ["A name in the worlds has a character that none may have.", WORLDS],
    BY_VALUE_RESOURCE: ["A type in the worlds has a resource itself, and not a handle of it.", WORLDS],
    EMPTY: ["A type in the worlds has no cases or members, but needs one.", WORLDS],
  },
  encoder: {
    UNKNOWN_WORLD: ["There is no world of this number.", "Choose another world."],
    NOT_AN_EXPORT: ["The world has no such export.", "Choose another world."],
    TYPE_EXPORTED: ["The world exports a type, which no component can.", "Put the type into an interface."],
    INTERFACE_TWICE: ["The world has an interface twice.", "Take one of them out of the world."],
    DEPENDENCY_LATER: ["The world has an interface before one that it uses.", WORLDS],
    IMPORT_NAME_CLASH: ["Two imports of the world have one name.", "Rename one of them."],
  },
  validate: {
    READ: ["The module can't be read.", DAMAGED],
    NOT_A_MODULE: ["It is a component, and not a core module.", APART],
    NOT_A_FUNCTION: ["An import is a table, a memory or a global, which no component can give.", "Define it in the module, or link the module that has it."],
    SIGNATURE_MISMATCH: ["A function is imported or exported with another type than its name says.", BINDINGS],
    NO_ROOT_IMPORT: ["The world does not import this function.", ROOT],
    ROOT_NOT_FUNCTION: ["What the world imports under this name is no function.", ROOT],
    BAD_SYNTAX: ["The name of an import begins as no name of a component does.", BINDINGS],
    UNKNOWN_INTERFACE: ["The world has no interface of this name, and no adapter is called so.", VERSION],
    UNKNOWN_INTRINSIC: ["No built-in function has this name.", BINDINGS],
    MISSING_FUNCTION: ["The interface has no function of this name.", BINDINGS],
    NO_SUCH_EXPORT: ["The world does not export this function.", BINDINGS],
    WHOLE_DIFFERS: ["Two modules have one name.", "Rename an adapter."],
    MIXED: ["A name is that of a module, and of something else too.", "Rename an adapter."],
    SEVERAL_MEMORY_IMPORTS: ["The module imports memory twice.", "Import it once."],
    DUPLICATE_IMPORT: ["Two imports of an adapter have one name.", "Run wctrim dedupe on the adapter, and take what that writes."],
    ADAPTER_TYPES_DIFFER: ["A function of an adapter is imported with two types.", "Import it with the type that the adapter exports."],
    SEVERAL_MEMORY_EXPORTS: ["The module exports two memories.", "Export one."],
    MISSING_CALLBACK: ["An asynchronous function is exported without its callback.", BINDINGS],
    MISSING_INTERFACE_EXPORT: ["The world exports a function of an interface that no module exports.", EXPORTS],
    MISSING_WORLD_EXPORT: ["The world exports a function that no module exports.", EXPORTS],
    ADAPTER_MODULE_DID_NOT_EXPORT: ["The adapter lacks a function that is imported of it.", "Take the adapter for which the main module was built."],
    ADAPTER_EXPORT_TYPE: ["The adapter exports a function with another type than it is imported with.", "Take the adapter for which the main module was built."],
    TYPED_REFERENCE: ["A function between two modules has a type that only one of them has.", "Give it a type of numbers and plain references."],
  },
  world: {
    MAIN: ["The main module does not fit the world.", "Choose another world."],
    ADAPTER: ["An adapter does not fit the world.", "Choose another world, or the adapter for which the main module was built."],
    TRIM: ["An adapter can't be trimmed.", "Take the adapter for which the main module was built."],
    MINIMIZED: ["A trimmed adapter does not fit the world.", "Take the adapter for which the main module was built."],
    PAGE_SIZE: ["The memories of the main module and of an adapter have pages of different sizes.", "Build both for one size."],
  },
  plan: {
    NO_MEMORY: ["A function needs the main module's memory, which is not exported.", "Export it under the name memory."],
    NO_REALLOC: ["A function needs room for its results, and no realloc is exported.", "Export cabi_realloc, and from an adapter cabi_import_realloc."],
    NO_LOWERING: ["A function has no plan.", "Choose another world."],
    WORLD: ["The component has no world.", "Choose another world."],
    OUTPUT: ["The plan can't be written.", ""],
  },
  message: {
    NOT_TEXT: ["It is neither a WebAssembly module nor a text in UTF-8.", "Give a module as a compiler makes it, or worlds as wasm-tools component wit --json prints them."],
    JSON: ["The worlds can't be read.", WORLDS],
    UNKNOWN_WORLD: ["There is no such world.", "Choose another world."],
    LENGTHS: ["The modules have other lengths than was said.", ""],
    RESOLVE: ["The worlds are not well-formed.", WORLDS],
    ADAPTER_TWICE: ["Two adapters have one name.", "Give one of them another name, or take it away."],
    DEDUPE: ["The imports of the main module can't be renamed.", DAMAGED],
    ENCODER: ["The world can't be encoded.", "Choose another world."],
    WORLD: ["The modules do not fit the world.", "Choose another world."],
    PLAN: ["The component has no plan.", "Choose another world."],
    SEVERAL_WORLDS: ["Several worlds have this name.", "Choose one of them."],
    PACKAGE_RANGE: ["A world names a package that is not there.", WORLDS],
    UNKNOWN_KEY: ["The world has no such export.", "Choose another world."],
    SEVERAL_KEYS: ["The world has several such exports.", "Choose another world."],
    REPEATED_KEY: ["An export is asked of two modules.", "Take one of the adapters away."],
  },
  component: {
    UNKNOWN_IMPORT: ["The world imports nothing that this key asks about.", "Take one of what it imports, which is listed with the fault."],
    WAYS: ["An adapter can't be searched.", DAMAGED],
  },
};

const nameOf = (of, number) => Object.keys(FAULTS[of]).find((it) => FAULTS[of][it] === number);

/** Which fault a number is, and each that it carries: the enum and the name of each. */
export function faultsOf(call, number) {
  const list = [], ofComponent = nameOf("component", number % 256) === undefined ? "message" : "component";
  for (let of = ENUMS[call] ?? ofComponent, rest = number; of; rest = Math.floor(rest / 256)) {
    const name = nameOf(of, rest % 256);
    if (name === undefined) break;
    list.push([of, name]);
    of = CARRIED[of]?.[name];
  }
  return list;
}

/** What a fault means, and what to do: of the last that it carries. */
export function hintOf({ call, number }) {
  const [means, hint] = faultsOf(call, number).map(([of, name]) => HINTS[of][name]).at(-1) ?? ["", ""];
  return { means, hint };
}
