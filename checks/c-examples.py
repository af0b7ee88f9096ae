#!/usr/bin/env python3
"""Compiles the examples of examples/c over the library, runs them, and compares their results.

    checks/c-examples.py [--library FOLDER] [--cases N] [PROGRAM]

Each is compiled as C99 and as C++11, with all warnings as errors, over libnuigatre.a and over a shared library made of it, with
the flags of nuigatre.pc beside it, if pkg-config is installed. Trimmed adapters have to be those of examples/, and plans those
of PROGRAM (default: the script `wcplan`). Then checks/c/fuzz_calls.c tries N damaged cases (2000). FOLDER has the library;
the default is the one that cargo links. Differences are printed, and the status is 1. It needs cc and c++; rust/check runs it.
"""
import argparse
import json
import os
import re
import shutil
import sys
import tempfile

from rust_examples import PLANS, TOP, lines_of

sys.path.append(os.path.join(TOP, "tools"))
from repository import run

INCLUDE = os.path.join(TOP, "include")
WARNINGS = ["-Wall", "-Wextra", "-Werror"]
COMPILERS = {"cc": ["cc", "-std=c99", "-pedantic"], "c++": ["c++", "-x", "c++", "-std=c++11"]}
# the adapter, what is trimmed of it, and the arguments of the example
TRIMMED = [("adapter.wasm", "trimmed.wasm", ["--realloc", "cabi_realloc", "size_of"])]


def library_folder():
    """The folder of the library that cargo links."""
    given = os.environ.get("NUIGATRE_LIB_DIR")
    folders = [given] if given else [os.path.join(TOP, "crates", "nuigatre", "out"), os.path.join(TOP, "rust", "unproved")]
    found = [folder for folder in folders if os.path.isfile(os.path.join(folder, "libnuigatre.a"))]
    if not found:
        sys.exit("libnuigatre.a is missing: rust/check makes it")
    return found[0]


def flags_of(folder):
    """What is passed to compile with the header, and to link the library."""
    if not (shutil.which("pkg-config") and os.path.isfile(os.path.join(folder, "nuigatre.pc"))):
        return ["-I" + INCLUDE], ["-L" + folder, "-lnuigatre"]
    environment = {**os.environ, "PKG_CONFIG_PATH": folder}
    asked = [run("pkg-config", flag, "nuigatre", env=environment).split() for flag in ("--cflags", "--libs")]
    return asked[0], asked[1]


class Built:
    """Programs in a folder, each compiled in the ways that there are."""

    def __init__(self, made, folder):
        self.made, self.folder = made, folder
        self.compiling, self.linking = flags_of(folder)
        self.shared = os.path.join(made, "libnuigatre.so")
        whole = ["-Wl,--whole-archive", os.path.join(folder, "libnuigatre.a"), "-Wl,--no-whole-archive"]
        run("cc", *WARNINGS, "-O2", "-fPIC", "-shared", *self.compiling, os.path.join(INCLUDE, "nuigatre_heap.c"), *whole,
            "-o", self.shared)
        exported = run("nm", "-D", "--defined-only", self.shared)
        if "rattle_" in exported:
            sys.exit("the shared library exports functions of its heap:\n" + exported)

    def program(self, source, compiler, heap=("-lnuigatre",)):
        """A program over the static library, with the sources of its heap, or over the shared one."""
        name = re.sub(r"\W", "", os.path.basename(source) + compiler + str(heap))
        program, linked = os.path.join(self.made, name), [*heap, "-x", "none"]
        linked += ["-L" + self.made, "-Wl,-rpath," + self.made] if heap == ("-lnuigatre",) else self.linking
        command = [*COMPILERS[compiler], *WARNINGS, "-O2", *self.compiling, source, *linked, "-o", program]
        # a library comes after what needs it
        run(*[word for word in command if word != "-lnuigatre"], "-lnuigatre")
        return program

    def ways(self, source):
        """The program in each way: how it is made, and its path."""
        source = os.path.join(TOP, "examples", "c", source)
        for compiler in COMPILERS:
            for kind, heap in ("static", (os.path.join(INCLUDE, "nuigatre_heap.c"),)), ("shared", ("-lnuigatre",)):
                yield "%s, %s" % (compiler, kind), self.program(source, compiler, heap)


def line_of(use):
    """A use of a plan, as `wcplan` prints it."""
    module = use["module"]
    words = ["main"] if module["kind"] == "main" else ["adapter", module["name"]]
    words += [use["interface"] or "$root", use["name"], "async" if use["abi"] == "guest-import-async" else "sync"]
    words += ["slot", "-" if use["slot"] is None else str(use["slot"]), "realloc", use["realloc"] or "-"]
    return " ".join(words)


def compare_trims(built):
    """How many adapters are trimmed as they have to be."""
    count, out = 0, os.path.join(built.made, "out.wasm")
    for way, program in built.ways("trim.c"):
        for adapter, trimmed, arguments in TRIMMED:
            run(program, os.path.join(TOP, "examples", adapter), out, *arguments)
            with open(out, "rb") as found, open(os.path.join(TOP, "examples", trimmed), "rb") as wanted:
                if found.read() != wanted.read():
                    sys.exit("trim.c by %s: another adapter than examples/%s" % (way, trimmed))
            count += 1
    return count


def compare_plans(built, wcplan):
    """How many lines of plans agree with those of `wcplan`."""
    count, programs = 0, list(built.ways("plan.c"))
    for plan in PLANS:
        wanted = plan.lines_of(wcplan)
        if wanted is None:
            continue
        for way, program in programs:
            found = [line_of(use) for use in json.loads("".join(lines_of([program, *plan.arguments], plan.folder)))]
            if found != wanted:
                sys.exit("plan.c by %s: another plan of %s than that of wcplan:\n%s" % (way, plan.folder, "\n".join(found)))
            count += len(found)
    return count


def fuzz(built, cases):
    source = os.path.join(TOP, "checks", "c", "fuzz_calls.c")
    program = os.path.join(built.made, "fuzz_calls")
    run("cc", *WARNINGS, "-O2", *built.compiling, source, *built.linking, "-o", program)
    plan = PLANS[0]
    world, name, main, adapter, key = plan.arguments
    return run(program, str(cases), "0", world, name, main, adapter, key, cwd=plan.folder)


def main():
    parser = argparse.ArgumentParser(description=__doc__, formatter_class=argparse.RawDescriptionHelpFormatter)
    parser.add_argument("--library", metavar="FOLDER", help="the folder of libnuigatre.a")
    parser.add_argument("--cases", type=int, default=2000, metavar="N", help="how many damaged cases are asked")
    parser.add_argument("program", nargs="?", type=os.path.abspath, default=os.path.join(TOP, "wcplan"), metavar="PROGRAM")
    arguments = parser.parse_args()
    with tempfile.TemporaryDirectory() as made:
        built = Built(made, os.path.abspath(arguments.library or library_folder()))
        print("%d adapters trimmed from C agree" % compare_trims(built))
        print("%d lines of plans from C agree" % compare_plans(built, arguments.program))
        print("%d damaged cases from C: each call, and how many ended with each status\n%s" % (
            arguments.cases, fuzz(built, arguments.cases)), end="")


if __name__ == "__main__":
    main()
