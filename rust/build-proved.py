#!/usr/bin/env python3
"""Proves and builds the static library of crates/nuigatre over what `rt ci` proved of the crates below it in this
checkout: crates/nuigatre/out/libnuigatre.a, and nuigatre.pc for it.

    rust/build-proved.py

`rt ci` leaves the statements and the code of each library in its out/rlib, and proves the static library too, but does
not build it. `rt lib` does, and proves all libraries below once more. This takes them as they are, and proves and builds
the static library alone, in some minutes, and gives its symbols the number of its form (rust/symbols.py). Where one of them is missing, or has a source that is newer, the status is 3,
and nothing is done. It is 1 where the static library is not proved, or there is no rt on PATH.
"""
import argparse
import os
import subprocess
import sys

sys.path.append(os.path.join(os.path.dirname(os.path.dirname(os.path.abspath(__file__))), "tools"))
import pkgconfig
import symbols
from repository import TOP, files_of, kit_command, kit_folder, rlib_of, used_by_crates

CRATE = "nuigatre"


def say(text):
    print("rust/check: " + text, file=sys.stderr)


def is_fresh(crate):
    """Whether the crate is proved, and no source is newer than the folder of what was proved. Its files may be older: `rt ci`
    takes them from another checkout where it proved the same sources there."""
    folder = os.path.join(rlib_of(crate), crate + ".rlib")
    made = os.stat(folder).st_mtime if os.path.isdir(folder) else 0
    paths = [path for part in ("src", "specs", "proofs") for path in files_of(crate, part, "")]
    return all(path.stat().st_mtime <= made for path in paths if path.is_file())


def main():
    argparse.ArgumentParser(description=__doc__, formatter_class=argparse.RawDescriptionHelpFormatter).parse_args()
    if kit_folder() is None:
        say("rt is not on PATH: it proves and builds the static library")
        return 1
    used = used_by_crates()
    if not all(is_fresh(library) for library in used[CRATE] if library in used):
        return 3
    say("the static library is proved and built over what rt ci proved here")
    folder = os.path.join(TOP, "crates", CRATE)
    os.makedirs(os.path.join(folder, "out"), exist_ok=True)
    flags = ["--jobs", "2", "--toolchain", os.path.join(kit_folder(), "toolchain"), "--backend", "llvm"]
    command = kit_command("build", CRATE, [*flags, "-o", os.path.join("out", "lib%s.a" % CRATE)])
    if subprocess.run(command, cwd=folder, check=False).returncode:
        return 1
    symbols.number(os.path.join(folder, "out", "lib%s.a" % CRATE))
    pkgconfig.write(os.path.join(folder, "out"))
    return 0


if __name__ == "__main__":
    sys.exit(main())
