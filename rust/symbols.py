#!/usr/bin/env python3
"""Gives the symbols of a static library of crates/nuigatre the number of its form, as `nuigatre9_trim` for `nuigatre_trim`.

    rust/symbols.py ARCHIVE

So two forms of the library can be parts of one program. include/nuigatre.h maps the names without it, and the Rust crate
declares the names with it. The number is that of the header. What has it already stays as it is. rust/check and
rust/build-proved.py do this with what rt makes; rust/build-unproved.py writes the names so. It needs objcopy, of the binutils
that compilers link with.
"""
import argparse
import os
import re
import subprocess
import sys

TOP = os.path.dirname(os.path.dirname(os.path.abspath(__file__)))
sys.path.append(os.path.join(TOP, "tools"))
from repository import need, read

FUNCTION = r'#\[unsafe\(no_mangle\)\]\s*pub extern "C" fn (nuigatre_\w+)'


def form():
    """The number of the form, by the header."""
    return int(re.search(r"^#define NUIGATRE_ABI (\d+)$", read("include", "nuigatre.h"), re.M)[1])


def numbered(name):
    """The symbol of a function of the library, or of its label."""
    return name.replace("nuigatre_", "nuigatre%d_" % form(), 1)


def functions():
    """The functions that the library exports, by its source."""
    return re.findall(FUNCTION, read("crates", "nuigatre", "src", "lib.rt"))


def number(archive, objcopy="objcopy"):
    """Gives the symbols of an archive the number, where they have none; with the objcopy for its processor."""
    need("%s binutils" % objcopy)
    renamed = ["--redefine-sym=%s=%s" % (name, numbered(name)) for name in functions()]
    new = str(archive) + ".new"
    subprocess.run([objcopy, "--enable-deterministic-archives", *renamed, archive, new], check=True)
    os.replace(new, archive)


def main():
    parser = argparse.ArgumentParser(description=__doc__, formatter_class=argparse.RawDescriptionHelpFormatter)
    parser.add_argument("archive", metavar="ARCHIVE")
    number(parser.parse_args().archive)


if __name__ == "__main__":
    main()
