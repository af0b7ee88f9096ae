#!/usr/bin/env python3
"""Compares the slots that the Rust crate's example `encoder` prints with the shims of another linker's components.

    checks/rust-shim.py [--worlds N] [--seed SEED]

Rust's `wasm-component-ld` links the programs of `checks/c/wasi` and examples/wasi/hello.c with its adapter of commands. One with
`wit-component` 0.246 or later also encodes N random worlds (20), with asynchronous functions, futures, streams and resources, for
main modules that import their built-ins, half of them over an adapter (checks/built_in_worlds.py). The example gets each main
module and adapter. The functions of a component's shim have to have the types of the slots, in their order, and the component
fills them with what they are named after, with the same options (checks/shim_of_component.py).

Shims that differ and refused worlds are printed, and how many agree. The status is 1 if one differs, or if none agrees. It needs
cargo, the static library and a rustup toolchain, and for the programs in C clang, lld, wasi-libc and libclang-rt-dev-wasm32.
rust/check runs it.
"""
import argparse
import glob
import json
import os
import re
import shutil
import subprocess
import sys
import tempfile

import adapters
from built_in_worlds import ROOT, World, module_of
from module_bytes import exported_names, name_at, section, sections
from rust_examples import TOP, built_example, lines_of
from shim_of_component import Component

WORLDS = os.path.join(TOP, "examples", "wasi", "wasi-command.json")
SOURCES = sorted(glob.glob(os.path.join(TOP, "checks", "c", "wasi", "*.c"))) + [os.path.join(TOP, "examples", "wasi", "hello.c")]
ADAPTER, OLD = "wasi_snapshot_preview1", "old"
KEY = "wasi:cli/run@0.2.6"
WRITE = ("wasi:io/streams@0.2.6", "[method]output-stream.blocking-write-and-flush", ["i32"] * 4, [])


class Compared:
    """Counts shims and slots that agree, and shims that differ."""

    def __init__(self, made):
        self.made, self.example = made, built_example("encoder")
        self.shims = self.slots = self.different = 0

    def compare(self, component, worlds, main, adapter):
        """Compares the shim of a component with the slots for a main module and an adapter, given as a name and a file."""
        name, path = adapter or (OLD, None)
        wanted = component.slots()
        if wanted is None:
            return
        arguments = [self.made, worlds, "wasi:cli/command", main]
        arguments += [name + "=" + path, KEY] if path else []
        printed = [line.split("\t", 2) for line in lines_of([self.example, *arguments], self.made)]
        found = [named(words[2]) for words in printed if words[0] == "slot"]
        # these linkers lower an asynchronous function indirectly even where it needs no memory
        wanted = [slot for slot in wanted if not slot.endswith("\tASYNC")]
        if found == wanted:
            self.shims, self.slots = self.shims + 1, self.slots + len(found)
        else:
            self.different += 1
            print("\n".join(["wanted", *wanted, "found", *found]))


def named(slot):
    """A slot as it is printed, under the name that the component has for it: of a built-in its own."""
    slot = re.sub(r"^[^\t]*\[((?:future|stream)-(?:read|write))-\w+\][^\t]*", r"\1", slot)
    return re.sub(r"^task-return-[^\t]*", "task.return", slot).replace("[async-lower]", "", 1)


def is_known(linker):
    """Whether the linker has `wit-component` 0.246 or later: before, `task.return` lacked the options of its function."""
    versions = re.findall(rb"wit-component-0\.(\d+)\.", adapters.read(linker))
    return bool(versions) and min(map(int, versions)) >= 246


def has_libc():
    """Whether programs in C can be compiled and linked."""
    return os.path.exists(os.path.join(adapters.LIBRARIES, "libc.a")) and shutil.which("clang") and shutil.which("wasm-ld")


def compare_programs(compared, linker, adapter):
    """Compares the shims of the programs in C."""
    path, component = os.path.join(compared.made, "main.wasm"), os.path.join(compared.made, "component.wasm")
    for source in SOURCES:
        object = os.path.join(compared.made, "object.o")
        subprocess.run(["clang", "--target=wasm32-wasi", "-O1", "-c", source, "-o", object], check=True)
        if adapters.component(linker, [object], ["--wasi-adapter", "command"], component):
            linked = Component(adapters.read(component), ADAPTER)
            write(path, linked.modules[0])
            compared.compare(linked, WORLDS, path, (ADAPTER, adapter))


def write(path, data):
    with open(path, "wb") as file:
        file.write(data)


def compare_world(compared, linker, adapter, seed):
    """Compares the shim for a random world; those of odd numbers have an adapter, with what the linker's says of its world."""
    at = {name: os.path.join(compared.made, name) for name in ("main.wasm", "old.wasm", "demo.wit", "worlds.json")}
    base = json.loads(adapters.read(WORLDS)) if seed % 2 else None
    world = World(seed, base)
    options = ["--adapt", OLD + "=" + at["old.wasm"]] if base else []
    if base:
        world.imports += [(OLD, "one", ["i32"], ["i32"]), (OLD, "two", ["i64"], [])]
        root = [("$root", field, ["i32"] * len(params), ["i32"] * len(results)) for field, params, results in ROOT]
        imports = [it for it in [*root, WRITE] if world.random.random() < 0.6]
        exports = [("two", ["i64"], []), ("one", ["i32"], ["i32"]), (KEY + "#run", [], ["i32"]),
                   ("cabi_import_realloc", ["i32"] * 4, ["i32"])]
        said = [section(id, of) for id, of in sections(adapters.read(adapter)) if id == 0 and name_at(of, 0)[0].startswith("component-type")]
        write(at["old.wasm"], module_of(imports, exports, "imported", b"".join(said)))
    realloc = ("cabi_realloc", ["i32"] * 4, ["i32"])
    main = module_of(world.imports, [realloc, *world.exports], "exported")
    write(at["main.wasm"], main)
    write(at["demo.wit"], "\n".join(world.wit).encode())
    write(at["worlds.json"], world.json().encode())
    options = ["--wasi-adapter", "none", *options, "--component-type", at["demo.wit"]]
    made, why = adapters.linked_component(linker, main, options, compared.made)
    if made is None:
        print("no component of world %d: %s" % (seed, why))
        return
    linked = Component(made, OLD)
    compared.compare(linked, at["worlds.json"], at["main.wasm"], (OLD, at["old.wasm"]) if base else None)


def main():
    parser = argparse.ArgumentParser(description=__doc__, formatter_class=argparse.RawDescriptionHelpFormatter)
    parser.add_argument("--worlds", type=int, default=20, metavar="N", help="how many random worlds")
    parser.add_argument("--seed", type=int, default=0, metavar="SEED", help="the number of the first one")
    arguments = parser.parse_args()
    with tempfile.TemporaryDirectory() as made:
        compared, linkers = Compared(made), [it for it in adapters.linkers() if has_libc() or is_known(it)]
        for linker in linkers:
            commands = [it for it in adapters.modules_inside(adapters.read(linker)) if KEY + "#run" in exported_names(it)]
            if not commands:
                continue
            adapter = os.path.join(made, "adapter.wasm")
            write(adapter, commands[0])
            if has_libc():
                compare_programs(compared, linker, adapter)
            if is_known(linker):
                for seed in range(arguments.seed, arguments.seed + arguments.worlds):
                    compare_world(compared, linker, adapter, seed)
    print("%d slots of %d shims agree, %d shims differ" % (compared.slots, compared.shims, compared.different))
    return 1 if compared.different or linkers and not compared.shims else 0


if __name__ == "__main__":
    sys.exit(main())
