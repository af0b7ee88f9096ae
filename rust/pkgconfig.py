#!/usr/bin/env python3
"""Writes nuigatre.pc beside a static library, by which pkg-config finds it and its header.

    rust/pkgconfig.py FOLDER

FOLDER is a folder of the repository that has libnuigatre.a. What is written names no place outside of it, so the checkout
can be moved. rust/check and the scripts that build the library do this. What a program does not call of the library is left
out of it (--gc-sections).
"""
import argparse
import os
import re
import sys

TOP = os.path.dirname(os.path.dirname(os.path.abspath(__file__)))
sys.path.append(os.path.join(TOP, "tools"))
from repository import read

TEXT = """libdir=${pcfiledir}/%s
includedir=${pcfiledir}/%s
heap=${includedir}/nuigatre_heap.c

Name: nuigatre
Description: %s
Version: %s
Libs: -L${libdir} %s-lnuigatre
Cflags: -I${includedir}
"""


def member(name):
    """A text of the Rust crate's Cargo.toml."""
    return re.search(r'^%s = "(.*)"$' % name, read("rust", "nuigatre", "Cargo.toml"), re.M)[1]


def text(libraries, include, is_static=True):
    """The file, which finds the library and the headers in these folders, from its own on."""
    linking = "-Wl,--gc-sections " if is_static else ""
    return TEXT % (libraries, include, member("description"), member("version"), linking)


def write(folder):
    folder = os.path.realpath(folder)
    include = os.path.relpath(os.path.join(os.path.realpath(TOP), "include"), folder)
    with open(os.path.join(folder, "nuigatre.pc"), "w", encoding="utf-8") as file:
        file.write(text(".", include))


def main():
    parser = argparse.ArgumentParser(description=__doc__, formatter_class=argparse.RawDescriptionHelpFormatter)
    parser.add_argument("folder", metavar="FOLDER")
    write(parser.parse_args().folder)


if __name__ == "__main__":
    main()
