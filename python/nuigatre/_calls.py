"""Made of include/nuigatre.h by tools/c_calls.py --write."""

from __future__ import annotations

from typing import Any

# the number that nuigatre_abi has to answer
ABI = 9

# the fields of an answer
ANSWER = [["status", "uint32_t"], ["fault", "uint32_t"], ["length", "size_t"], ["module_length", "size_t"], ["position", "size_t"]]

# the statuses of answers
STATUSES = {
    "DONE": 0,
    "FAULT": 1,
    "TOO_SMALL": 2,
    "SAME": 3,
    "BAD_ARGUMENT": 4,
    "MEMORY": 5,
    "NO_SUCH_FAULT": 6,
}

# the calls on bytes, for fault_text
NUMBERS = {
    "dedupe": 0,
    "trim": 1,
    "why": 2,
    "scan": 3,
    "paths": 4,
}

# the calls, without `nuigatre_`: the parameters with what each is, and the result
CALLS: dict[str, Any] = {
    "dedupe": {"parameters": [["wasm", "bytes"], ["out", "out"]], "result": "answer"},
    "trim": {"parameters": [["seed0", "u64"], ["seed1", "u64"], ["wasm", "bytes"], ["required", "slices"], ["has_realloc", "bool"], ["realloc", "bytes"], ["page_size_log2", "u32"], ["out", "out"]], "result": "answer"},
    "why": {"parameters": [["seed0", "u64"], ["seed1", "u64"], ["wasm", "bytes"], ["required", "slices"], ["out", "out"]], "result": "answer"},
    "world": {"parameters": [["seed0", "u64"], ["seed1", "u64"], ["message", "bytes"], ["modules", "bytes"], ["out", "out"]], "result": "answer"},
    "plan": {"parameters": [["seed0", "u64"], ["seed1", "u64"], ["message", "bytes"], ["modules", "bytes"], ["out", "out"]], "result": "answer"},
    "planned_world": {"parameters": [["seed0", "u64"], ["seed1", "u64"], ["message", "bytes"], ["modules", "bytes"], ["out", "out"]], "result": "answer"},
    "validate": {"parameters": [["seed0", "u64"], ["seed1", "u64"], ["message", "bytes"], ["modules", "bytes"], ["has_adapter", "bool"], ["adapter", "bytes"], ["out", "out"]], "result": "answer"},
    "validated_module": {"parameters": [["seed0", "u64"], ["seed1", "u64"], ["message", "bytes"], ["modules", "bytes"], ["has_adapter", "bool"], ["adapter", "bytes"], ["required", "bytes"], ["out", "out"]], "result": "answer"},
    "scan": {"parameters": [["wasm", "bytes"], ["out", "out"]], "result": "answer"},
    "paths": {"parameters": [["seed0", "u64"], ["seed1", "u64"], ["wasm", "bytes"], ["exports", "slices"], ["imports", "slices"], ["out", "out"]], "result": "answer"},
    "component_paths": {"parameters": [["seed0", "u64"], ["seed1", "u64"], ["message", "bytes"], ["modules", "bytes"], ["key", "bytes"], ["out", "out"]], "result": "answer"},
    "component_imports": {"parameters": [["seed0", "u64"], ["seed1", "u64"], ["message", "bytes"], ["modules", "bytes"], ["out", "out"]], "result": "answer"},
    "fault_text": {"parameters": [["call", "u32"], ["number", "u32"], ["out", "out"]], "result": "answer"},
    "abi": {"parameters": [], "result": "u32"},
}

# the faults of each enum
FAULTS = {
    "read": {"NOT_WASM": 1, "COMPONENT": 2, "TRUNCATED": 3, "BAD_NUMBER": 4, "BAD_NAME": 5, "SECTION_ORDER": 6, "SECTION_SIZE": 7, "UNKNOWN_SECTION": 8, "BAD_TYPE": 9, "BAD_LIMITS": 10, "BAD_INDEX": 11, "DUPLICATE_EXPORT": 12, "BAD_INITIALISER": 13, "COUNT_MISMATCH": 14, "UNKNOWN_OPERATOR": 15, "BAD_NESTING": 16, "BAD_START": 17, "TOO_LARGE": 18},
    "dedupe": {"READ": 1, "TOO_LARGE": 2},
    "gc": {"READ": 1, "MISSING_EXPORT": 2, "UNSUPPORTED_SECTION": 3, "LIVE_BODY": 4, "SEVERAL_NAMED": 5, "LIVE_TABLE": 6, "SEVERAL_MEMORIES": 7, "LOCAL_MEMORY": 8, "REALLOC_TYPE": 9, "REALLOC_MEMORY": 10, "TOO_LARGE": 11},
    "problem": {"MISSING": 0, "NOT_AN_OBJECT": 1, "NOT_ONE_MEMBER": 2, "NOT_A_LIST": 3, "NOT_A_TEXT": 4, "NOT_AN_INDEX": 5, "UNKNOWN": 6, "LEFT_OUT": 7, "OUTDATED": 8, "NOT_A_PACKAGE_NAME": 9, "NOT_A_BOOL": 10},
    "json": {"NOT_JSON": 1, "REPEATED_MEMBER": 2, "WRONG": 3},
    "resolve": {"ID_RANGE": 1, "CYCLE": 2, "UNNAMED": 3, "KEY_MISMATCH": 4, "NAME_CLASH": 5, "BAD_CHARACTER": 6, "BY_VALUE_RESOURCE": 7, "EMPTY": 8},
    "encoder": {"UNKNOWN_WORLD": 1, "NOT_AN_EXPORT": 2, "TYPE_EXPORTED": 3, "INTERFACE_TWICE": 4, "DEPENDENCY_LATER": 5, "IMPORT_NAME_CLASH": 6},
    "validate": {"READ": 1, "NOT_A_MODULE": 2, "NOT_A_FUNCTION": 3, "SIGNATURE_MISMATCH": 4, "NO_ROOT_IMPORT": 5, "ROOT_NOT_FUNCTION": 6, "BAD_SYNTAX": 7, "UNKNOWN_INTERFACE": 8, "UNKNOWN_INTRINSIC": 9, "MISSING_FUNCTION": 10, "NO_SUCH_EXPORT": 11, "WHOLE_DIFFERS": 12, "MIXED": 13, "SEVERAL_MEMORY_IMPORTS": 14, "DUPLICATE_IMPORT": 15, "ADAPTER_TYPES_DIFFER": 16, "SEVERAL_MEMORY_EXPORTS": 17, "MISSING_CALLBACK": 18, "MISSING_INTERFACE_EXPORT": 19, "MISSING_WORLD_EXPORT": 20, "ADAPTER_MODULE_DID_NOT_EXPORT": 21, "ADAPTER_EXPORT_TYPE": 22, "TYPED_REFERENCE": 23},
    "world": {"MAIN": 1, "ADAPTER": 2, "TRIM": 3, "MINIMIZED": 4, "PAGE_SIZE": 5},
    "plan": {"NO_MEMORY": 1, "NO_REALLOC": 2, "NO_LOWERING": 3, "WORLD": 4, "OUTPUT": 5},
    "message": {"NOT_TEXT": 1, "JSON": 2, "UNKNOWN_WORLD": 3, "LENGTHS": 4, "RESOLVE": 5, "ADAPTER_TWICE": 6, "DEDUPE": 7, "ENCODER": 8, "WORLD": 9, "PLAN": 10, "SEVERAL_WORLDS": 11, "PACKAGE_RANGE": 12, "UNKNOWN_KEY": 13, "SEVERAL_KEYS": 14, "REPEATED_KEY": 15},
    "component": {"UNKNOWN_IMPORT": 16, "WAYS": 17},
}
