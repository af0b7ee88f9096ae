#!/usr/bin/env python3
"""Makes some 2,300 modules with Debian's compilers, linkers and libraries, and compares what wasm-validate says of each with what
read_module and read_body say; with --back, writes back what was read of each, and judges that.

    checks/real-modules.py [--back]

The modules are of four kinds:

    clang      the sources of checks/c, at five levels, with and without vectors, atomics, tail calls, several results,
               debug information, for 32 and 64 bits
    linked     these linked in seven ways, a position-independent library, programs over the C and C++ libraries, and both
               libraries whole
    libraries  each object of the C and C++ libraries' archives
    text       the texts of checks/text through wat2wasm, with the shortest and with the longest numbers

What wasm-validate accepts, with the features of the format that is read here, read_module and read_body have to accept, with as
many bodies as wasm-objdump counts. A line names each mismatch, each module that wasm-validate refuses, and each that is left
out. The reverse is not compared: operands are not typed here.

With --back wasm-validate has to accept what was written; it is no longer than the sections that are kept; and it is read as the
same module, and written as the same bytes. Elements, the count of data and data are not written, so a body that names a segment
is refused. Then the module's own sections of these three kinds are put in, and nothing else is changed.

The modules are made again, with --back only if they are missing. The program is that of reader_program.py. The status is 1 if
there is a mismatch.
"""
import argparse
import concurrent.futures
import itertools
import os
import pathlib
import re
import shutil
import subprocess
import sys

from module_bytes import number_at, spans
from reader_program import reader_program

sys.path.append(str(pathlib.Path(__file__).resolve().parent.parent / "tools"))
from repository import TOP, need, run

CHECKS = TOP / "checks"
MADE = CHECKS / "data" / "real"
LIBRARIES = "/usr/lib/wasm32-wasi"
ARCHIVES = [f"{LIBRARIES}/lib{it}.a" for it in ("c++", "c++abi", "c")]
# the features of the format that is read here, beyond those that wasm-validate has on by itself
FEATURES = [f"--enable-{it}" for it in "threads tail-call memory64 multi-memory extended-const relaxed-simd".split()]
# What is refused here, and the feature by which wasm-validate accepts it: exceptions and tags, which that format does not
# have; and wabt's old encoding of typed function references. wabt 1.0.32 writes `6b` for `(ref $t)` and `6c` for
# `(ref null $t)`, as a draft of the proposal did. Here they are read by the proposal's final codes, `64` and `63`, and `6b`
# and `6c` are no types. A wabt that writes the final codes makes a mismatch of references.wat: then it is left out no more.
LEFT_OUT = {
    "text/exceptions.wasm": ("--enable-exceptions", "exceptions and tags"),
    "clang/thrown.o": ("--enable-exceptions", "exceptions and tags"),
    "text/references.wasm": ("--enable-function-references", "wabt's old encoding of typed function references"),
}
LEVELS = "-O0 -O1 -O2 -O3 -Os".split()
MORE = {
    "plain": [],
    "newer": "-mbulk-memory -mmutable-globals -msign-ext -mnontrapping-fptoint -mreference-types".split(),
    "vectors": ["-msimd128"],
    "relaxed": ["-msimd128", "-mrelaxed-simd"],
    "atomics": "-matomics -mbulk-memory -mmutable-globals -ftls-model=local-exec".split(),
    "tails": ["-mtail-call"],
    "values": "-mmultivalue -Xclang -target-abi -Xclang experimental-mv".split(),
    "debug": ["-g"],
}
# the sources, and what each is compiled with; clang 14 has no vectors for wasm64
SOURCES = {
    "small.c": "plain newer vectors relaxed atomics tails values debug",
    "larger.c": "plain newer vectors relaxed atomics tails values debug",
    "vectors.c": "vectors relaxed",
    "atomics.c": "atomics",
    "tails.c": "tails",
    "values.c": "values",
}
# further objects: the compiler, its flags and the source
OBJECTS = {
    "hello": "clang --target=wasm32-wasi -O2 hello.c",
    "words": "clang++ --target=wasm32-wasi -O2 -std=c++17 -fno-exceptions words.cpp",
    "thrown": "clang++ --target=wasm32 -O2 -fwasm-exceptions thrown.cpp",
    "small-pic": "clang --target=wasm32-emscripten -ffreestanding -fPIC -O2 small.c",
}
LINKED = {
    "exported": "--export-all",
    "imported": "--export-all --import-memory --import-table",
    "table": "--export-table --growable-table --strip-all",
    "compressed": "--export-all --compress-relocations --strip-debug -O2",
    "relocations": "--export-all --emit-relocs",
    "stack-first": "--no-gc-sections --stack-first",
}
# the ids of the sections that are written: all with contents that are read, and one of producers; and the order of all
KEPT = {1, 2, 3, 4, 5, 6, 7, 8, 10}
SEGMENTS = {9, 12, 11}
ORDER = [1, 2, 3, 4, 5, 6, 7, 8, 9, 12, 10, 11]
# an operator that names a segment, or a function that only a segment may declare
BY_SEGMENT = re.compile(r"\| *(memory\.init|data\.drop|table\.init|elem\.drop|ref\.func) ")


def compile_sources():
    for source, kinds in SOURCES.items():
        for kind, level, target in itertools.product(kinds.split(), LEVELS, ("wasm32", "wasm64")):
            if target == "wasm32" or kind not in ("vectors", "relaxed"):
                to = f"{MADE}/clang/{source[:-2]}-{kind}{level}-{target}.o"
                run("clang", f"--target={target}", level, *MORE[kind], "-c", f"{CHECKS}/c/{source}", "-o", to)
    for name, words in OBJECTS.items():
        *command, source = words.split()
        run(*command, "-c", f"{CHECKS}/c/{source}", "-o", f"{MADE}/clang/{name}.o")


def link_objects():
    objects, to = f"{MADE}/clang", f"{MADE}/linked"
    for file in sorted(os.listdir(objects)):
        name, wide = file[:-2], ["-mwasm64"] * file.endswith("-wasm64.o")
        if re.fullmatch(r".*-wasm(32|64)", name):
            for kind, words in LINKED.items():
                # lld 14 crashes where it compresses these
                if kind != "compressed" or "-atomics" not in name:
                    words = ["--no-entry", "--allow-undefined", *words.split(), f"{objects}/{file}"]
                    run("wasm-ld", *wide, *words, "-o", f"{to}/{name}-{kind}.wasm")
            run("wasm-ld", *wide, "--relocatable", f"{objects}/{file}", "-o", f"{to}/{name}-again.o")
        if "-atomics" in name:
            words = "--no-entry --allow-undefined --export-all --shared-memory --import-memory --max-memory=16777216".split()
            run("wasm-ld", *wide, *words, f"{objects}/{file}", "-o", f"{to}/{name}-shared.wasm")
    run("wasm-ld", "--shared", "--experimental-pic", f"{objects}/small-pic.o", "-o", f"{to}/small-pic.wasm")
    for name, archives in ("hello", ARCHIVES[2:]), ("words", ARCHIVES):
        words = [f"{LIBRARIES}/crt1.o", f"{objects}/{name}.o", *archives, "--allow-undefined"]
        run("wasm-ld", *words, "-o", f"{to}/{name}.wasm")
    whole = ["wasm-ld", "--no-entry", "--whole-archive", "--allow-undefined", ARCHIVES[2], ARCHIVES[0]]
    run(*whole, "--export-all", "-o", f"{to}/libraries-exported.wasm")
    run(*whole, "--no-gc-sections", "-o", f"{to}/libraries.wasm")


def assemble_texts():
    for text in sorted((CHECKS / "text").iterdir()):
        more = [it for key, (it, _) in LEFT_OUT.items() if key == f"text/{text.stem}.wasm"]
        run("wat2wasm", *FEATURES, *more, text, "-o", f"{MADE}/text/{text.stem}.wasm")
        if not more:
            words = ["--no-canonicalize-leb128s", "--debug-names", text, "-o", f"{MADE}/text/{text.stem}-long.wasm"]
            run("wat2wasm", *FEATURES, *words)


def members(archive):
    """The modules in an archive."""
    data, at = archive.read_bytes(), 8
    while at < len(data):
        size = int(data[at + 48 : at + 58])
        at += 60
        if data[at : at + 4] == b"\0asm":
            yield data[at : at + size]
        at += size + size % 2


def unpack_archives():
    for file in sorted(pathlib.Path(LIBRARIES).iterdir()):
        if file.suffix == ".a":
            for at, data in enumerate(members(file)):
                (MADE / "libraries" / f"{file.stem}-{at}.o").write_bytes(data)
        elif file.suffix == ".o":
            shutil.copy(file, MADE / "libraries")


def make_modules():
    for part in ("clang", "linked", "text", "libraries"):
        shutil.rmtree(MADE / part, ignore_errors=True)
        os.makedirs(MADE / part)
    compile_sources()
    link_objects()
    assemble_texts()
    unpack_archives()


def modules():
    return [f"{at}/{it}" for at, _, names in sorted(os.walk(MADE)) for it in sorted(names)]


def validated(file, *more):
    """Why wasm-validate refuses a file; None where it accepts it."""
    words = ["wasm-validate", "--ignore-custom-section-errors", *FEATURES, *more, file]
    done = subprocess.run(words, capture_output=True, text=True, check=False)
    return None if not done.returncode else (done.stdout + done.stderr).strip().splitlines()[0]


def printed(program, files):
    """What the program says of each file."""
    lines = []
    for at in range(0, len(files), 500):
        lines += run(program, "bodies", "1", *files[at : at + 500]).splitlines()
    return [line[len(file) + 1 :].split() for file, line in zip(files, lines, strict=True)]


def code_count(file):
    """How many bodies wasm-objdump counts."""
    found = re.search(r"^ *Code .* count: (\d+)", run("wasm-objdump", "-h", file), re.MULTILINE)
    return int(found[1]) if found else 0


def compare_readings(program):
    """Compares what is said of each module; whether there is no mismatch."""
    parts, left_out, differ, invalid, files = {}, 0, 0, 0, modules()
    for file, words in zip(files, printed(program, files)):
        name = os.path.relpath(file, MADE)
        if name in LEFT_OUT:
            feature, reason = LEFT_OUT[name]
            left_out += 1
            why = validated(file, feature) or "accepts"
            print(f"left out: {name}: {reason}; wasm-validate {feature} {why}, read_module {words[0]}")
            differ += words[0] == "ok" and words[4] == "0"
            continue
        refused = validated(file)
        if refused:
            invalid += 1
            print(f"not judged: {name}: wasm-validate: {refused}; read_module: {' '.join(words)}")
            continue
        accepted = words[0] == "ok" and words[4] == "0" and int(words[1]) == code_count(file)
        if not accepted:
            differ += 1
            print(f"DIFFERS: {name}: wasm-validate accepts, with {code_count(file)} bodies; here: {' '.join(words)}")
        counts = [int(it) for it in words[1:4]] if words[0] == "ok" else [0, 0, 0]
        part = parts.setdefault(name.split("/")[0], [0] * 5)
        part[:] = map(sum, zip(part, [1, accepted, *counts]))
    print(f"{'from':<10} {'modules':>8} {'accepted':>9} {'bodies':>8} {'bytes of bodies':>16} {'operators':>10}")
    total = [sum(it) for it in zip(*parts.values())]
    for name, it in [*parts.items(), ("all", total)]:
        print(f"{name:<10} {it[0]:8} {it[1]:9} {it[2]:8} {it[3]:16} {it[4]:10}")
    print(f"{total[0]} modules that wasm-validate accepts, {total[1]} accepted here, {total[2]} bodies; "
          f"{left_out} left out, {invalid} not judged; {differ} mismatches")
    return not differ


def raw_sections(data):
    """The id of each section, and its bytes, from the id on."""
    return [(id, data[start:end]) for id, start, _, end in spans(data)]


def is_producers(id, data):
    _, at = number_at(data, 1)
    length, at = number_at(data, at)
    return id == 0 and data[at : at + length] == b"producers"


def kept_size(module):
    """The bytes of the header and of the sections that are kept; of producers the last one is."""
    found = raw_sections(module)
    producers = [len(data) for id, data in found if is_producers(id, data)]
    return 8 + sum(len(data) for id, data in found if id in KEPT) + sum(producers[-1:])


def with_segments(text, module):
    """The text, with the module's sections of segments put in as they are, at their positions."""
    # custom sections are written last
    made, position = raw_sections(text), lambda id: ORDER.index(id) if id else len(ORDER)
    for id, data in raw_sections(module):
        if id in SEGMENTS:
            after = (at for at, (other, _) in enumerate(made) if position(other) > position(id))
            made.insert(next(after, len(made)), (id, data))
    return text[:8] + b"".join(data for _, data in made)


def accepted(to, text, file, module):
    """How the text, which is in the file `to`, is accepted, and what is wrong where it isn't."""
    refused = validated(to)
    if not refused:
        return "as they are", None
    listed = subprocess.run(["wasm-objdump", "-d", file], capture_output=True, text=True, errors="replace", check=False).stdout
    if not BY_SEGMENT.search(listed):
        return "DIFFERS", f"names no segments, and is refused: {refused}"
    to.write_bytes(with_segments(text, module))
    refused = validated(to)
    return ("DIFFERS", f"with its segments: {refused}") if refused else ("with segments", None)


def judged(program, file):
    """How what is written of a file is accepted, or that it isn't judged; what is wrong, if anything is; and its bytes."""
    to = CHECKS / "data" / "written" / os.path.relpath(file, MADE).replace("/", "-")
    if validated(file):
        return "not judged", None, 0
    said = subprocess.run([program, "again", file, to], capture_output=True, text=True, check=False).stdout
    words = said[len(file) + 1 :].split()
    if words[:1] != ["ok"]:
        return "DIFFERS", f"not written: {' '.join(words) or 'no answer'}", 0
    module, text = pathlib.Path(file).read_bytes(), to.read_bytes()
    what, why = accepted(to, text, file, module)
    to.unlink()
    if words[2] != "same":
        what, why = "DIFFERS", "the text spells another module, or is not its own text"
    elif len(text) > kept_size(module):
        what, why = "DIFFERS", f"{len(text)} bytes of {kept_size(module)}"
    return what, why, len(text)


def judge_written(program):
    """Judges what is written of each module; whether there is no mismatch."""
    (CHECKS / "data" / "written").mkdir(parents=True, exist_ok=True)
    files, counts, size = modules(), dict.fromkeys(("as they are", "with segments", "not judged", "DIFFERS"), 0), 0
    with concurrent.futures.ThreadPoolExecutor(2) as pool:
        for file, (what, why, length) in zip(files, pool.map(lambda it: judged(program, it), files)):
            counts[what] += 1
            size += length
            if why:
                print(f"{what}: {os.path.relpath(file, MADE)}: {why}")
    print(f"{counts['as they are']} modules written back and accepted as they are, {counts['with segments']} with their own "
          f"segments put back; {size} bytes; {counts['not judged']} not judged; {counts['DIFFERS']} mismatches")
    return not counts["DIFFERS"]


def main():
    parser = argparse.ArgumentParser(description=__doc__, formatter_class=argparse.RawDescriptionHelpFormatter)
    parser.add_argument("--back", action="store_true")
    given = parser.parse_args()
    need("clang clang", "wasm-ld lld", "wat2wasm wabt", "wasm-validate wabt", "wasm-objdump wabt", f"{LIBRARIES}/libc.a wasi-libc",
         f"{LIBRARIES}/libc++.a libc++-dev-wasm32", f"{LIBRARIES}/libc++abi.a libc++-dev-wasm32")
    program = reader_program()
    if not given.back or not (MADE / "libraries").is_dir():
        make_modules()
    return 0 if (judge_written if given.back else compare_readings)(program) else 1


if __name__ == "__main__":
    sys.exit(main())
