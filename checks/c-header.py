#!/usr/bin/env python3
"""Compares the declarations of include/nuigatre.h and of the Rust crate with the sources of the static library.

    checks/c-header.py

Compared are the functions of crates/nuigatre with their parameters and results; the number of their form; the fields of an
answer; the numbers of statuses, calls and faults; which faults carry which; and the functions that give the library its memory.
A line is printed for each difference; the status is then 1.
"""
import argparse
import pathlib
import re
import sys

sys.path.append(str(pathlib.Path(__file__).resolve().parent.parent / "tools"))
from repository import TOP, code_of, files_of, libraries, read

NUMBERS = {"u32": "uint32_t", "u64": "uint64_t", "usize": "size_t", "bool": "bool", "Answer": "nuigatre_answer",
           "Allocated": "nuigatre_allocated"}
# the type of the pointer that is passed, before the length, for a parameter that is a slice
SLICES = {"&[u8]": "const uint8_t *", "&[&[u8]]": "const nuigatre_slice *", "&mut [u8]": "uint8_t *"}
# the types of the Rust crate's declarations
POINTERS = {"*const u8": "const uint8_t *", "*const Slice<'_>": "const nuigatre_slice *", "*mut u8": "uint8_t *",
            "*mut c_void": "void *"}


def without_comments(text):
    """A text of C or of Rust without its comments."""
    return re.sub(r"/\*.*?\*/|//[^\n]*", "", text, flags=re.S)


def parameters_of(text):
    """The parameters of a function of Rust or Rattle: names and types."""
    for parameter in filter(None, map(str.strip, re.split(r",(?![^<]*>)", text))):
        name, _, kind = parameter.partition(":")
        yield name.strip().removeprefix("_"), kind.strip()


def declared(name, result, parameters):
    """A declaration, as the header has it but for its spaces."""
    listed = ", ".join(kind + ("" if kind.endswith("*") else " ") + of for of, kind in parameters)
    return f"{result or 'void'} {name}({listed or 'void'})"


def of_library(text):
    """The declarations of the functions that the library exports, by its source."""
    pattern = r'#\[unsafe\(no_mangle\)\]\s*pub extern "C" fn (\w+)\((.*?)\) -> (\w+)'
    for name, inside, result in re.findall(pattern, text, re.S):
        parameters = []
        for of, kind in parameters_of(inside):
            if kind in SLICES:
                parameters += [(of, SLICES[kind]), (of + "_length", "size_t")]
            elif kind != "Global":
                parameters.append((of, NUMBERS[kind]))
        yield declared(name, NUMBERS[result], parameters)


def of_rust(text):
    """The declarations of the library's functions that the Rust crate has."""
    for name, inside, result in re.findall(r"(?<!unsafe )\bfn (nuigatre_\w+)\((.*?)\) -> (\w+);", text, re.S):
        parameters = [(of, POINTERS.get(kind) or NUMBERS[kind]) for of, kind in parameters_of(inside)]
        yield declared(name, NUMBERS[result], parameters)


def of_heap(text):
    """The declarations of the functions that give the library its memory, by those of the Rust crate."""
    names = {"alloc": "rattle_alloc", "reallocate": "rattle_realloc", "dealloc": "rattle_dealloc"}
    for name, inside, result in re.findall(r'^extern "C" fn (\w+)\((.*?)\)(?: -> (\w+))?', text, re.S | re.M):
        parameters = [(of, POINTERS.get(kind) or NUMBERS[kind]) for of, kind in parameters_of(inside)]
        yield declared(names[name], NUMBERS.get(result), parameters)


def of_header(text):
    """The declarations of a header."""
    for declaration in re.findall(r"^(?:NUIGATRE_HEAP )?(\w+ \w+\([^;{}]*\));", text, re.M):
        yield re.sub(r"\s+", " ", declaration)


def fields_of(text, name):
    """The fields of a struct of Rust or Rattle, as C has them."""
    inside = re.search(r"struct %s \{(.*?)\}" % name, text, re.S)[1]
    return [f"{POINTERS.get(kind) or NUMBERS[kind] + ' '}{of}" for of, kind in re.findall(r"(?:pub )?(\w+): ([^,]+),", inside)]


def fields_of_header(text, name):
    inside = re.search(r"struct %s \{(.*?)\}" % name, text, re.S)[1]
    return [re.sub(r"\s+", " ", field.strip()) for field in inside.split(";") if field.strip()]


def shouted(name):
    """The name of a variant as C has it: `NotAModule` is NOT_A_MODULE."""
    return re.sub(r"(?<!^)(?=[A-Z])", "_", name).upper()


def faults_of(crates):
    """The faults of the enums that have numbers, as the definitions of specs/ say them: the name in C, the number, and the
    enum that is carried. Memory is no fault that a call answers."""
    clause = r"^(\w+)_number \(?(\w+)[^=\n]*= (?:carrying )?(\d+)(?: \((\w+)_number \w+\))?$"
    for path in (path for crate in crates for path in files_of(crate, "specs", ".antt")):
        for kind, variant, number, carried in re.findall(clause, path.read_text(), re.M):
            head = "NUIGATRE_" + kind.removesuffix("_fault").upper() + "_"
            if variant != "Memory":
                yield f"nuigatre_{kind}: {head}{shouted(variant)} = {number}" + (f", which carries a nuigatre_{carried}" if carried else "")


def faults_of_header(text):
    for kind, inside in re.findall(r"enum (nuigatre_\w+) \{(.*?)\n\}", text, re.S):
        for name, number, carried in re.findall(r"(NUIGATRE_\w+) = (\d+),?(?: /\* carries a (\w+) \*/)?", inside):
            if kind not in ("nuigatre_status", "nuigatre_call"):
                yield f"{kind}: {name} = {number}" + (f", which carries a {carried}" if carried else "")


def statuses_of(text):
    return [f"NUIGATRE_{name} = {number}" for name, number in re.findall(r"^(?:pub )?const ([A-Z_]+): u32 = (\d);", text, re.M)]


def calls_of(text):
    """The calls on bytes: in the Rust crate its tests have them."""
    return [f"NUIGATRE_{name} = {number}" for name, number in re.findall(r"const ([A-Z]+_CALL): u32 = (\d);", text)]


def calls_of_header(text):
    return re.findall(r"NUIGATRE_\w+ = \d+", re.search(r"enum nuigatre_call \{(.*?)\}", text, re.S)[1])


def statuses_of_header(text):
    return re.findall(r"NUIGATRE_\w+ = \d+", re.search(r"enum nuigatre_status \{(.*?)\}", text, re.S)[1])


def differences(what, wanted, found):
    """A line for each that one list has and the other lacks, or one where they are in another order."""
    wanted, found = list(wanted), list(found)
    if not wanted:
        return [f"{what}: none in the sources"]
    lines = [f"{what}: missing {it}" for it in wanted if it not in found]
    lines += [f"{what}: not in the sources {it}" for it in found if it not in wanted]
    return lines or ([] if wanted == found else [f"{what}: in another order"])


def compared():
    library = code_of(TOP / "crates/nuigatre/src/lib.rt")
    answers = code_of(TOP / "crates/wc_calls/src/answers.rt")
    calls = calls_of(code_of(TOP / "crates/wc_calls/src/fault_texts.rt"))
    text = read("include", "nuigatre.h")
    header = without_comments(text)
    ffi = without_comments(read("rust", "nuigatre", "src", "ffi.rs"))
    heap = without_comments(read("rust", "nuigatre", "src", "heap.rs"))
    form = re.findall(r"const ABI: u32 = (\d+);", library)
    functions = [it for it in of_header(header) if " rattle_" not in it]
    yield "functions of the header", of_library(library), functions
    yield "memory of the header", of_heap(heap), [it for it in of_header(header) if " rattle_" in it]
    yield "form of the header", form, re.findall(r"#define NUIGATRE_ABI (\d+)", header)
    yield "answer of the header", fields_of(answers, "Answer"), fields_of_header(header, "nuigatre_answer")
    yield "block of the header", fields_of(heap, "Allocated"), fields_of_header(header, "nuigatre_allocated")
    yield "statuses of the header", statuses_of(answers), statuses_of_header(header)
    yield "calls of the header", calls, calls_of_header(header)
    yield "faults of the header", sorted(faults_of(libraries())), sorted(faults_of_header(text))
    yield "functions of the Rust crate", sorted(of_library(library)), sorted(of_rust(ffi))
    yield "form of the Rust crate", form, re.findall(r"const ABI: u32 = (\d+);", ffi)
    yield "answer of the Rust crate", fields_of(answers, "Answer"), fields_of(ffi, "Answer")
    yield "statuses of the Rust crate", statuses_of(answers), [it for it in statuses_of(ffi) if "_ABI" not in it]
    yield "calls of the Rust crate", calls, calls_of(ffi)


def main():
    argparse.ArgumentParser(description=__doc__, formatter_class=argparse.RawDescriptionHelpFormatter).parse_args()
    lines = [line for what, wanted, found in compared() for line in differences(what, wanted, found)]
    print("\n".join(lines) or "the C header and the Rust crate declare what the library has")
    return 1 if lines else 0


if __name__ == "__main__":
    sys.exit(main())
