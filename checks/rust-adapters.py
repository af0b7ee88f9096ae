#!/usr/bin/env python3
"""Compares adapters that the Rust crate of rust/nuigatre trims with those that the program `wctrim` makes.

    checks/rust-adapters.py [PROGRAM]
    checks/rust-adapters.py --find

The adapters are those that Rust's `wasm-component-ld` carries, as in checks/adapters.py. Each is trimmed to each export alone, to
all, and to twenty choices of them, with the main module's realloc and without, by the crate's example `trim` and by PROGRAM
(default: crates/wctrim/out/wctrim): both have to write the same bytes or print the same fault. A line is printed for each
difference, and at last how many agree; the status is 1 if one differs, or if there is none. --find only says by its status
whether there are adapters. It needs cargo; rust/check runs it.
"""
import argparse
import os
import random
import subprocess
import sys
import tempfile

import adapters
from module_bytes import exported_names
from rust_examples import TOP, built_example


def choices(names):
    """Names alone, all of them, and some that chance picks: the same in each run."""
    chance = random.Random(1)
    some = [chance.sample(names, chance.randint(2, len(names))) for _ in range(20)]
    return [[name] for name in names] + [names] + some + [["no export of this name"]]


def trimmed(command, source, target, options):
    """The bytes that a program writes, or what it prints where it writes none."""
    if os.path.exists(target):
        os.remove(target)
    ran = subprocess.run([*command, source, target, *options], capture_output=True, text=True)
    if ran.returncode == 0:
        return adapters.read(target)
    return ran.stdout.strip().removeprefix("wctrim: ") or "status %d" % ran.returncode


def main():
    parser = argparse.ArgumentParser(description=__doc__, formatter_class=argparse.RawDescriptionHelpFormatter)
    parser.add_argument("program", nargs="?", default=os.path.join(TOP, "crates", "wctrim", "out", "wctrim"))
    parser.add_argument("--find", action="store_true", help="say by the status whether there are adapters")
    arguments = parser.parse_args()
    if arguments.find:
        return 0 if adapters.linkers() else 1
    program, example = arguments.program, built_example("trim")
    agreed = different = count = 0
    with tempfile.TemporaryDirectory() as folder:
        source, target = os.path.join(folder, "in.wasm"), os.path.join(folder, "out.wasm")
        for linker in adapters.linkers():
            for module in adapters.modules_inside(adapters.read(linker)):
                count += 1
                with open(source, "wb") as file:
                    file.write(module)
                for names in choices(exported_names(module)):
                    for options in [], ["--realloc", "cabi_realloc"]:
                        one = trimmed([example], source, target, options + names)
                        other = trimmed([program, "trim"], source, target, options + names)
                        agreed, different = agreed + (one == other), different + (one != other)
                        if one != other:
                            print("adapter %d of %s: %s differs" % (count, linker, " ".join(options + names)))
    print("%d adapters: %d agree, %d differ" % (count, agreed, different))
    return 1 if different or not agreed else 0


if __name__ == "__main__":
    sys.exit(main())
