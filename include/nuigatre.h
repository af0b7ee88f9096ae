/* The calls of libnuigatre.a, for C99 and C++11 on: core WebAssembly modules made ready to be parts of a component.
 *
 * Link libnuigatre.a, and nuigatre_heap.c beside this file or another definition of the three functions at the end.
 * The library is for 64-bit Linux on x86 and on Arm. It needs nothing else but memcpy, memmove, memset and memcmp.
 *
 * Slices. A slice is passed as a pointer and then a length: of bytes, or of slices. One that is read and one that is
 * written must not overlap. The library keeps no pointer after a call, and writes to nothing but `out`.
 *
 * NULL. What is proved of these functions is proved for pointers that are not NULL. The pointer of an empty slice may be
 * NULL all the same, that of `out` too: that is tested. No other pointer may.
 *
 * Memory. Each call takes what it needs from the three functions at the end, and has given all of it back when it
 * returns, whatever it answers. Nothing that it answers has to be freed: all bytes are in the caller's `out`.
 *
 * The buffer `out`. It need not be initialised. Where it is too small for the answer (NUIGATRE_TOO_SMALL), or for what
 * says what is wrong (NUIGATRE_FAULT with a `length` of more than `out_length`), nothing is written to it, and `length`
 * is how many bytes are needed: call again with so many. The same arguments have the same answer each time, under any
 * seed. Where `length` bytes are written, those after them are as they were.
 *
 * Threads. Calls may run on several threads at once, if the three functions at the end may. No call waits, and none
 * reads or sets anything of its thread or its process. A signal handler must not make one.
 *
 * Stack. nuigatre_dedupe, nuigatre_trim, nuigatre_why and nuigatre_scan need a stack of 32 KB, and the other calls one of
 * 256 KB: that is more than twice what any of them was measured to take (docs/RUST.md). No input was found that needs more.
 *
 * Seed. `seed0` and `seed1` are the seed of the maps that a call makes. No answer depends on them. Whoever chooses the
 * names in a module and knows the seed can make a call slow, so let them be random, as by getrandom, if modules come
 * from others. All calls of a process may have one seed.
 */
#ifndef NUIGATRE_H
#define NUIGATRE_H

#include <stdbool.h>
#include <stddef.h>
#include <stdint.h>

#ifdef __cplusplus
extern "C" {
#endif

/* The number that nuigatre_abi returns, if the library is of this header's form of calls, messages and answers. */
#define NUIGATRE_ABI 9

/* The library's symbols have that number, so that two forms can be parts of one program. A library as `rt lib` makes it,
 * before rust/symbols.py, has the names alone: then define NUIGATRE_PLAIN_SYMBOLS. */
#ifndef NUIGATRE_PLAIN_SYMBOLS
#define nuigatre_dedupe nuigatre9_dedupe
#define nuigatre_trim nuigatre9_trim
#define nuigatre_why nuigatre9_why
#define nuigatre_world nuigatre9_world
#define nuigatre_plan nuigatre9_plan
#define nuigatre_planned_world nuigatre9_planned_world
#define nuigatre_validate nuigatre9_validate
#define nuigatre_validated_module nuigatre9_validated_module
#define nuigatre_scan nuigatre9_scan
#define nuigatre_paths nuigatre9_paths
#define nuigatre_component_paths nuigatre9_component_paths
#define nuigatre_component_imports nuigatre9_component_imports
#define nuigatre_fault_text nuigatre9_fault_text
#define nuigatre_abi nuigatre9_abi
#endif

/* Bytes that are read. */
typedef struct nuigatre_slice {
    const uint8_t *bytes;
    size_t length;
} nuigatre_slice;

/* The answer of a call. */
typedef struct nuigatre_answer {
    /* Which kind of answer it is: one of the numbers of nuigatre_status. */
    uint32_t status;
    /* With NUIGATRE_FAULT the number of the fault; else 0. */
    uint32_t fault;
    /* With NUIGATRE_DONE and NUIGATRE_TOO_SMALL how many bytes the answer has. With NUIGATRE_FAULT how many bytes say
     * what is wrong, or what that is about. Else 0. */
    size_t length;
    /* How many of the answer's bytes are modules. They are the first ones. */
    size_t module_length;
    /* With NUIGATRE_FAULT: of nuigatre_trim, nuigatre_why and nuigatre_paths, where an export is missing, the position of
     * its name among those that are passed; of calls on a message how many bytes the fault's text has. Else 0. */
    size_t position;
} nuigatre_answer;

enum nuigatre_status {
    /* The answer is in the front of `out`. */
    NUIGATRE_DONE = 0,
    /* There is no answer, because of a fault. */
    NUIGATRE_FAULT = 1,
    /* The answer is longer than `out`. */
    NUIGATRE_TOO_SMALL = 2,
    /* The answer is the input itself. */
    NUIGATRE_SAME = 3,
    /* The call has no answer for such arguments. */
    NUIGATRE_BAD_ARGUMENT = 4,
    /* An allocation failed. */
    NUIGATRE_MEMORY = 5,
    /* No fault of the call has the number: of nuigatre_fault_text alone. */
    NUIGATRE_NO_SUCH_FAULT = 6
};

/* The calls on bytes, for nuigatre_fault_text. */
enum nuigatre_call {
    NUIGATRE_DEDUPE_CALL = 0,
    NUIGATRE_TRIM_CALL = 1,
    NUIGATRE_WHY_CALL = 2,
    NUIGATRE_SCAN_CALL = 3,
    NUIGATRE_PATHS_CALL = 4
};

/* Renames imports so that no two share a module and a name: the first keeps its name, and each that is there again
 * gets ` [v2]`, or the next free number, after its own.
 *
 * NUIGATRE_DONE: `out` has the renamed module, `module_length` bytes, and then its renames: how many they are, and of
 * each the import's module, its original name and its new name, each with its length before it. Numbers are LEB128.
 * NUIGATRE_SAME: no import repeats, or the bytes are a component's.
 * NUIGATRE_FAULT: a fault of nuigatre_dedupe_fault. `out` has a JSON object that says at which byte the module stops to
 * be right, or `length` is 0.
 * NUIGATRE_TOO_SMALL, NUIGATRE_MEMORY. */
nuigatre_answer nuigatre_dedupe(const uint8_t *wasm, size_t wasm_length, uint8_t *out, size_t out_length);

/* Trims an adapter to what its exports of the names `required` reach. There are `required_length` names, each once or
 * more. The main module exports a realloc as `realloc`, where `has_realloc`; else `realloc` is not looked at. Its
 * memory has pages of 2^`page_size_log2` bytes, 16 as a rule.
 *
 * NUIGATRE_DONE: `out` has the trimmed adapter.
 * NUIGATRE_BAD_ARGUMENT: there is no name, a name is not UTF-8, or `page_size_log2` is more than 16.
 * NUIGATRE_FAULT: a fault of nuigatre_gc_fault. `out` has a JSON object that says what it is about, or `length` is 0.
 * NUIGATRE_TOO_SMALL, NUIGATRE_MEMORY. */
nuigatre_answer nuigatre_trim(uint64_t seed0, uint64_t seed1, const uint8_t *wasm, size_t wasm_length,
                              const nuigatre_slice *required, size_t required_length, bool has_realloc,
                              const uint8_t *realloc, size_t realloc_length, uint32_t page_size_log2, uint8_t *out,
                              size_t out_length);

/* Says why an adapter imports what it does, where its exports of these names are required.
 *
 * NUIGATRE_DONE: `out` has the shortest chains from required exports to imports, as JSON.
 * NUIGATRE_BAD_ARGUMENT: a name is not UTF-8.
 * NUIGATRE_FAULT: as of nuigatre_trim.
 * NUIGATRE_TOO_SMALL, NUIGATRE_MEMORY. */
nuigatre_answer nuigatre_why(uint64_t seed0, uint64_t seed1, const uint8_t *wasm, size_t wasm_length,
                             const nuigatre_slice *required, size_t required_length, uint8_t *out, size_t out_length);

/* Makes the world of a component. `message` is JSON, an object with the members `resolve`, `world`, `length`,
 * `exports`, `adapters` and others; `modules` has the bytes of the main module and of the adapters, one after another.
 * What the members mean: crates/wc_calls/MODEL.md of the repository.
 *
 * NUIGATRE_DONE: `out` has modules, `module_length` bytes: the main module, with its repeated imports renamed, and the
 * trimmed adapters and the libraries that are needed. After them is the world as JSON, with the length of each adapter.
 * Its member `export_options` has the canonical options with which each exported function is lifted: the sum of 1 for a
 * memory, 2 for a realloc, 4 for an encoding of strings. A function that is lifted asynchronously has 8 more.
 * NUIGATRE_FAULT: a fault of nuigatre_message_fault. `out` has its text, `position` bytes, and then, if `length` is
 * more, a JSON object that says what it is about: its member `kind` says which object it is. All names that the fault
 * has are members of it, so nothing has to be read out of the text.
 * NUIGATRE_TOO_SMALL, NUIGATRE_MEMORY. */
nuigatre_answer nuigatre_world(uint64_t seed0, uint64_t seed1, const uint8_t *message, size_t message_length,
                               const uint8_t *modules, size_t modules_length, uint8_t *out, size_t out_length);

/* Makes the plan of a component: what each function that its core modules import needs, as JSON. All else is as of
 * nuigatre_world. */
nuigatre_answer nuigatre_plan(uint64_t seed0, uint64_t seed1, const uint8_t *message, size_t message_length,
                              const uint8_t *modules, size_t modules_length, uint8_t *out, size_t out_length);

/* Makes the world of a component and its plan, once, where nuigatre_world and nuigatre_plan make it twice.
 *
 * NUIGATRE_DONE: as of nuigatre_world, and the JSON object has the plan as its last member, `plan`.
 * NUIGATRE_FAULT: as of nuigatre_plan: also where there is a world, and no plan of it.
 * NUIGATRE_TOO_SMALL, NUIGATRE_MEMORY. */
nuigatre_answer nuigatre_planned_world(uint64_t seed0, uint64_t seed1, const uint8_t *message, size_t message_length,
                                       const uint8_t *modules, size_t modules_length, uint8_t *out,
                                       size_t out_length);

/* Validates one module of a component: the adapter or the library of the name `adapter`, where `has_adapter`; else the
 * main module, and `adapter` is not looked at. The message and the modules are those of nuigatre_world.
 *
 * NUIGATRE_DONE: it is valid. `length` is 0.
 * NUIGATRE_BAD_ARGUMENT: no adapter has the name.
 * NUIGATRE_FAULT: as of nuigatre_world.
 * NUIGATRE_MEMORY. It is never NUIGATRE_TOO_SMALL. */
nuigatre_answer nuigatre_validate(uint64_t seed0, uint64_t seed1, const uint8_t *message, size_t message_length,
                                  const uint8_t *modules, size_t modules_length, bool has_adapter,
                                  const uint8_t *adapter, size_t adapter_length, uint8_t *out, size_t out_length);

/* Validates one module of a component, and says what it imports and exports: the adapter or the library of the name
 * `adapter`, where `has_adapter`; else the main module, and `adapter` and `required` are not looked at. The message and the
 * modules are those of nuigatre_world. The main module of an adapter is not validated, so `required` has the functions that
 * are imported from it: how many they are, and of each its name, with its length before it, and its type as a type section
 * has it: the byte 0x60, how many parameters, their types, how many results, and theirs. Numbers are LEB128.
 *
 * NUIGATRE_DONE: it is valid. `out` has what is recorded of its imports and exports as JSON, an object as `info` of the
 * world that nuigatre_world makes.
 * NUIGATRE_BAD_ARGUMENT: no adapter has the name, or `required` is not such a list, or has a name twice.
 * NUIGATRE_FAULT: as of nuigatre_world.
 * NUIGATRE_TOO_SMALL, NUIGATRE_MEMORY. */
nuigatre_answer nuigatre_validated_module(uint64_t seed0, uint64_t seed1, const uint8_t *message, size_t message_length,
                                          const uint8_t *modules, size_t modules_length, bool has_adapter,
                                          const uint8_t *adapter, size_t adapter_length, const uint8_t *required,
                                          size_t required_length, uint8_t *out, size_t out_length);

/* Lists what a module imports and exports, with types, and how its functions are named. Bodies of functions, elements and
 * data are not read.
 *
 * NUIGATRE_DONE: `out` has a JSON object. Its members `imports` and `exports` are lists of objects, in the order of the
 * module. Each has a `name`, a `kind`, which is `func`, `table`, `memory` or `global`, and a `type`. An import has the name
 * of its `module` too, and an export the `index` of its item among all of the kind. `function_names` lists the names that
 * name sections give functions, each with `index` and `name`.
 * NUIGATRE_FAULT: a fault of nuigatre_read_fault. `out` has a JSON object that says at which byte the module stops to be
 * right.
 * NUIGATRE_TOO_SMALL, NUIGATRE_MEMORY. */
nuigatre_answer nuigatre_scan(const uint8_t *wasm, size_t wasm_length, uint8_t *out, size_t out_length);

/* Answers why a module imports something: the paths to its imports, of main modules too. Paths begin at its exports of the
 * names `exports`, or at all, where there are none, and at its start function; only where none of these leads to an import,
 * at its active segments. Each text of `imports` asks for imports: `KEY` for those of a module or of a package of
 * interfaces, as `wasi:io/error` and `wasi:io`, each with its version or without, and `KEY=NAME` for those of them that have
 * this name; KEY ends at the first `=`. Without texts all are asked for.
 *
 * NUIGATRE_DONE: `out` has a line of JSON: an object whose member `ways` lists the paths, in the order of the imports. Each
 * has the import's module as `interface`, its `name`, and its `steps`: where it begins, and then items, functions with their
 * names. It is the shortest, and of several the first. An import to which no path leads is left out, and so is what the
 * module does not import. Where texts ask for imports, each item has a last member `only`: whether each path to any of these
 * imports goes through it, and it is none of them.
 * NUIGATRE_BAD_ARGUMENT: a name, or a text of `imports`, is not UTF-8.
 * NUIGATRE_FAULT: a fault of nuigatre_gc_fault: NUIGATRE_GC_READ, NUIGATRE_GC_MISSING_EXPORT or NUIGATRE_GC_LIVE_BODY. `out`
 * has a JSON object that says what it is about, or `length` is 0.
 * NUIGATRE_TOO_SMALL, NUIGATRE_MEMORY. */
nuigatre_answer nuigatre_paths(uint64_t seed0, uint64_t seed1, const uint8_t *wasm, size_t wasm_length,
                               const nuigatre_slice *exports, size_t exports_length, const nuigatre_slice *imports,
                               size_t imports_length, uint8_t *out, size_t out_length);

/* Answers why a component imports what a key asks about: the paths through its main module and its adapters that lead to
 * imports of its world. The message and the modules are those of nuigatre_world. The key is `all`; `$root`, for all that is
 * the world's own; or it asks about imports of the world: an interface or a package, as `wasi:io/error` and `wasi:io`, each
 * with its version or without, or a function or a type of the world itself. No plan is made.
 *
 * NUIGATRE_DONE: `out` has a line of JSON, what `wcplan --why KEY --json` prints.
 * NUIGATRE_BAD_ARGUMENT: the key is not UTF-8.
 * NUIGATRE_FAULT: a fault of nuigatre_message_fault, as of nuigatre_world, or one of nuigatre_component_fault: their numbers
 * differ. `out` has its text, `position` bytes, and then, if `length` is more, a JSON object that says what it is about. Of
 * NUIGATRE_COMPONENT_UNKNOWN_IMPORT its `kind` is `imports`; it has the key as `key`, and as `imports` the list of all that the
 * world imports, as texts that a key may be.
 * NUIGATRE_TOO_SMALL, NUIGATRE_MEMORY. */
nuigatre_answer nuigatre_component_paths(uint64_t seed0, uint64_t seed1, const uint8_t *message, size_t message_length,
                                         const uint8_t *modules, size_t modules_length, const uint8_t *key,
                                         size_t key_length, uint8_t *out, size_t out_length);

/* Answers what a component imports of each interface: which modules import it, and what has to go for it to go. The message
 * and the modules are those of nuigatre_world. No plan is made.
 *
 * NUIGATRE_DONE: `out` has a line of JSON, what `wcplan --imports --json` prints: an object whose member `imports` lists the
 * interfaces, each with `interface`, `kind` and `modules`.
 * NUIGATRE_FAULT: as of nuigatre_component_paths, but for NUIGATRE_COMPONENT_UNKNOWN_IMPORT.
 * NUIGATRE_TOO_SMALL, NUIGATRE_MEMORY. */
nuigatre_answer nuigatre_component_imports(uint64_t seed0, uint64_t seed1, const uint8_t *message, size_t message_length,
                                           const uint8_t *modules, size_t modules_length, uint8_t *out,
                                           size_t out_length);

/* Gives the text of a fault of a call on bytes, by the number that it answers: `call` is one of nuigatre_call. The text of a
 * fault that is carried is there too, as in `Read: NotWasm`; the name of a missing export is not.
 *
 * NUIGATRE_DONE: `out` has the text.
 * NUIGATRE_NO_SUCH_FAULT: the call answers no fault by this number, or there is no such call.
 * NUIGATRE_TOO_SMALL, NUIGATRE_MEMORY. */
nuigatre_answer nuigatre_fault_text(uint32_t call, uint32_t number, uint8_t *out, size_t out_length);

/* The number of the form of these calls, their messages and answers: NUIGATRE_ABI. It goes up with each change that a
 * caller can see, but for new calls, and for objects of a new kind that say what a fault is about. */
uint32_t nuigatre_abi(void);

/* Faults. The number of a fault is one of its enum. Where it carries another one, 256 times the number of that is
 * added. So of a fault f of nuigatre_world, f % 256 is a nuigatre_message_fault; where that is NUIGATRE_MESSAGE_WORLD,
 * f / 256 % 256 is a nuigatre_world_fault, and so on. Numbers never change, and new ones come last. No fault is or
 * carries that an allocation failed, which would be 0: the status is then NUIGATRE_MEMORY. */

/* Why bytes are not a module. */
enum nuigatre_read_fault {
    NUIGATRE_READ_NOT_WASM = 1,
    NUIGATRE_READ_COMPONENT = 2,
    NUIGATRE_READ_TRUNCATED = 3,
    NUIGATRE_READ_BAD_NUMBER = 4,
    NUIGATRE_READ_BAD_NAME = 5,
    NUIGATRE_READ_SECTION_ORDER = 6,
    NUIGATRE_READ_SECTION_SIZE = 7,
    NUIGATRE_READ_UNKNOWN_SECTION = 8,
    NUIGATRE_READ_BAD_TYPE = 9,
    NUIGATRE_READ_BAD_LIMITS = 10,
    NUIGATRE_READ_BAD_INDEX = 11,
    NUIGATRE_READ_DUPLICATE_EXPORT = 12,
    NUIGATRE_READ_BAD_INITIALISER = 13,
    NUIGATRE_READ_COUNT_MISMATCH = 14,
    NUIGATRE_READ_UNKNOWN_OPERATOR = 15,
    NUIGATRE_READ_BAD_NESTING = 16,
    NUIGATRE_READ_BAD_START = 17,
    NUIGATRE_READ_TOO_LARGE = 18
};

/* Why imports could not be renamed. */
enum nuigatre_dedupe_fault {
    NUIGATRE_DEDUPE_READ = 1, /* carries a nuigatre_read_fault */
    NUIGATRE_DEDUPE_TOO_LARGE = 2
};

/* Why an adapter could not be trimmed. */
enum nuigatre_gc_fault {
    NUIGATRE_GC_READ = 1, /* carries a nuigatre_read_fault */
    NUIGATRE_GC_MISSING_EXPORT = 2,
    NUIGATRE_GC_UNSUPPORTED_SECTION = 3,
    NUIGATRE_GC_LIVE_BODY = 4,
    NUIGATRE_GC_SEVERAL_NAMED = 5,
    NUIGATRE_GC_LIVE_TABLE = 6,
    NUIGATRE_GC_SEVERAL_MEMORIES = 7,
    NUIGATRE_GC_LOCAL_MEMORY = 8,
    NUIGATRE_GC_REALLOC_TYPE = 9,
    NUIGATRE_GC_REALLOC_MEMORY = 10,
    NUIGATRE_GC_TOO_LARGE = 11
};

/* A mistake in a JSON value. */
enum nuigatre_problem {
    NUIGATRE_PROBLEM_MISSING = 0,
    NUIGATRE_PROBLEM_NOT_AN_OBJECT = 1,
    NUIGATRE_PROBLEM_NOT_ONE_MEMBER = 2,
    NUIGATRE_PROBLEM_NOT_A_LIST = 3,
    NUIGATRE_PROBLEM_NOT_A_TEXT = 4,
    NUIGATRE_PROBLEM_NOT_AN_INDEX = 5,
    NUIGATRE_PROBLEM_UNKNOWN = 6,
    NUIGATRE_PROBLEM_LEFT_OUT = 7,
    NUIGATRE_PROBLEM_OUTDATED = 8,
    NUIGATRE_PROBLEM_NOT_A_PACKAGE_NAME = 9,
    NUIGATRE_PROBLEM_NOT_A_BOOL = 10
};

/* Why a text could not be read as JSON. */
enum nuigatre_json_fault {
    NUIGATRE_JSON_NOT_JSON = 1,
    NUIGATRE_JSON_REPEATED_MEMBER = 2,
    NUIGATRE_JSON_WRONG = 3 /* carries a nuigatre_problem */
};

/* A rule that worlds, interfaces, types or packages break. */
enum nuigatre_resolve_fault {
    NUIGATRE_RESOLVE_ID_RANGE = 1,
    NUIGATRE_RESOLVE_CYCLE = 2,
    NUIGATRE_RESOLVE_UNNAMED = 3,
    NUIGATRE_RESOLVE_KEY_MISMATCH = 4,
    NUIGATRE_RESOLVE_NAME_CLASH = 5,
    NUIGATRE_RESOLVE_BAD_CHARACTER = 6,
    NUIGATRE_RESOLVE_BY_VALUE_RESOURCE = 7,
    NUIGATRE_RESOLVE_EMPTY = 8
};

/* Why parts are no encoder's. */
enum nuigatre_encoder_fault {
    NUIGATRE_ENCODER_UNKNOWN_WORLD = 1,
    NUIGATRE_ENCODER_NOT_AN_EXPORT = 2,
    NUIGATRE_ENCODER_TYPE_EXPORTED = 3,
    NUIGATRE_ENCODER_INTERFACE_TWICE = 4,
    NUIGATRE_ENCODER_DEPENDENCY_LATER = 5,
    NUIGATRE_ENCODER_IMPORT_NAME_CLASH = 6
};

/* Why a core module is refused. */
enum nuigatre_validate_fault {
    NUIGATRE_VALIDATE_READ = 1, /* carries a nuigatre_read_fault */
    NUIGATRE_VALIDATE_NOT_A_MODULE = 2,
    NUIGATRE_VALIDATE_NOT_A_FUNCTION = 3,
    NUIGATRE_VALIDATE_SIGNATURE_MISMATCH = 4,
    NUIGATRE_VALIDATE_NO_ROOT_IMPORT = 5,
    NUIGATRE_VALIDATE_ROOT_NOT_FUNCTION = 6,
    NUIGATRE_VALIDATE_BAD_SYNTAX = 7,
    NUIGATRE_VALIDATE_UNKNOWN_INTERFACE = 8,
    NUIGATRE_VALIDATE_UNKNOWN_INTRINSIC = 9,
    NUIGATRE_VALIDATE_MISSING_FUNCTION = 10,
    NUIGATRE_VALIDATE_NO_SUCH_EXPORT = 11,
    NUIGATRE_VALIDATE_WHOLE_DIFFERS = 12,
    NUIGATRE_VALIDATE_MIXED = 13,
    NUIGATRE_VALIDATE_SEVERAL_MEMORY_IMPORTS = 14,
    NUIGATRE_VALIDATE_DUPLICATE_IMPORT = 15,
    NUIGATRE_VALIDATE_ADAPTER_TYPES_DIFFER = 16,
    NUIGATRE_VALIDATE_SEVERAL_MEMORY_EXPORTS = 17,
    NUIGATRE_VALIDATE_MISSING_CALLBACK = 18,
    NUIGATRE_VALIDATE_MISSING_INTERFACE_EXPORT = 19,
    NUIGATRE_VALIDATE_MISSING_WORLD_EXPORT = 20,
    NUIGATRE_VALIDATE_ADAPTER_MODULE_DID_NOT_EXPORT = 21,
    NUIGATRE_VALIDATE_ADAPTER_EXPORT_TYPE = 22,
    NUIGATRE_VALIDATE_TYPED_REFERENCE = 23
};

/* Why a component has no world. */
enum nuigatre_world_fault {
    NUIGATRE_WORLD_MAIN = 1, /* carries a nuigatre_validate_fault */
    NUIGATRE_WORLD_ADAPTER = 2, /* carries a nuigatre_validate_fault */
    NUIGATRE_WORLD_TRIM = 3, /* carries a nuigatre_gc_fault */
    NUIGATRE_WORLD_MINIMIZED = 4, /* carries a nuigatre_validate_fault */
    NUIGATRE_WORLD_PAGE_SIZE = 5
};

/* Why a component's world has no plan. */
enum nuigatre_plan_fault {
    NUIGATRE_PLAN_NO_MEMORY = 1,
    NUIGATRE_PLAN_NO_REALLOC = 2,
    NUIGATRE_PLAN_NO_LOWERING = 3,
    NUIGATRE_PLAN_WORLD = 4,
    NUIGATRE_PLAN_OUTPUT = 5
};

/* Why a message has no answer. */
enum nuigatre_message_fault {
    NUIGATRE_MESSAGE_NOT_TEXT = 1,
    NUIGATRE_MESSAGE_JSON = 2, /* carries a nuigatre_json_fault */
    NUIGATRE_MESSAGE_UNKNOWN_WORLD = 3,
    NUIGATRE_MESSAGE_LENGTHS = 4,
    NUIGATRE_MESSAGE_RESOLVE = 5, /* carries a nuigatre_resolve_fault */
    NUIGATRE_MESSAGE_ADAPTER_TWICE = 6,
    NUIGATRE_MESSAGE_DEDUPE = 7, /* carries a nuigatre_dedupe_fault */
    NUIGATRE_MESSAGE_ENCODER = 8, /* carries a nuigatre_encoder_fault */
    NUIGATRE_MESSAGE_WORLD = 9, /* carries a nuigatre_world_fault */
    NUIGATRE_MESSAGE_PLAN = 10, /* carries a nuigatre_plan_fault */
    NUIGATRE_MESSAGE_SEVERAL_WORLDS = 11,
    NUIGATRE_MESSAGE_PACKAGE_RANGE = 12,
    NUIGATRE_MESSAGE_UNKNOWN_KEY = 13,
    NUIGATRE_MESSAGE_SEVERAL_KEYS = 14,
    NUIGATRE_MESSAGE_REPEATED_KEY = 15
};

/* Why it can't be said why a component imports something, where it has a world. The numbers are none of
 * nuigatre_message_fault. */
enum nuigatre_component_fault {
    NUIGATRE_COMPONENT_UNKNOWN_IMPORT = 16,
    NUIGATRE_COMPONENT_WAYS = 17 /* carries a nuigatre_gc_fault */
};

/* What the program defines: nuigatre_heap.c has it, over malloc, realloc and free. The names are hidden: a shared
 * library that has libnuigatre.a in it exports none of them, and calls its own. */

#if defined(__GNUC__)
#define NUIGATRE_HEAP __attribute__((visibility("hidden")))
#else
#define NUIGATRE_HEAP
#endif

/* A block, where `ok`; else `block` is any pointer but NULL. */
typedef struct nuigatre_allocated {
    bool ok;
    void *block;
} nuigatre_allocated;

/* A block of `size` bytes, which may be 0, at an address that `align` divides. `align` is 1, 2, 4, 8 or 16. */
NUIGATRE_HEAP nuigatre_allocated rattle_alloc(size_t size, size_t align);

/* The block with `size` bytes, at the same address or another, the first `kept` bytes as they were. Where there is no
 * memory the block stays as it is. */
NUIGATRE_HEAP nuigatre_allocated rattle_realloc(void *block, size_t kept, size_t size, size_t align);

/* Takes back a block that one of these two gave. */
NUIGATRE_HEAP void rattle_dealloc(void *block);

#ifdef __cplusplus
}
#endif

#endif
