// The types of calls.mjs, which is made of the C header.

/** The number of the form of the calls. */
export const ABI: number;

/** The fields of an answer, with their types in C. */
export const ANSWER: readonly (readonly [name: string, type: string])[];

/** The statuses of answers. */
export const STATUSES: Readonly<Record<"DONE" | "FAULT" | "TOO_SMALL" | "SAME" | "BAD_ARGUMENT" | "MEMORY" | "NO_SUCH_FAULT", number>>;

/** The calls on bytes, for `fault_text`. */
export const NUMBERS: Readonly<Record<"dedupe" | "trim" | "why" | "scan" | "paths", number>>;

/** What a parameter of a call is. */
export type Kind = "bytes" | "slices" | "bool" | "u32" | "u64" | "out";

/** The calls, without `nuigatre_`: the parameters with what each is, and the result. */
export const CALLS: Readonly<Record<"dedupe" | "trim" | "why" | "world" | "plan" | "planned_world" | "validate" | "validated_module" | "scan" | "paths" | "component_paths" | "component_imports" | "fault_text" | "abi", { parameters: [name: string, kind: Kind][]; result: "answer" | "u32" }>>;

/** The faults of each enum by their names. The number of a fault is one of these, plus 256 times that of the fault which it carries. */
export const FAULTS: Readonly<Record<"read" | "dedupe" | "gc" | "problem" | "json" | "resolve" | "encoder" | "validate" | "world" | "plan" | "message" | "component", Readonly<Record<string, number>>>>;
