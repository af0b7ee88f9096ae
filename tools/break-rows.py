#!/usr/bin/env python3
"""Breaks the lines of bytes in answers of rows as the program of rows prints them, at 32 bytes.

    tools/break-rows.py [--write] [FILE ..]

The default is all files of rows. So bytes can be put into an answer, or taken out, anywhere. Without --write the files whose
lines are broken elsewhere are printed; the status is then 1.
"""
import argparse
import itertools
import pathlib
import re
import sys

from repository import row_files

BYTES_IN_LINE = 32


def broken(text):
    """A text of rows with the bytes of each run of lines of one word, as `out bytes`, in lines of 32."""
    lines = []
    for head, run in itertools.groupby(text.split("\n"), lambda line: (re.match(r"out (bytes|owned|borrowed) (?=[0-9a-f]{2}( |$))", line) or [""])[0]):
        if not head:
            lines.extend(run)
            continue
        found = " ".join(line[len(head):] for line in run).split()
        lines.extend(head + " ".join(found[at:at + BYTES_IN_LINE]) for at in range(0, len(found), BYTES_IN_LINE))
    return "\n".join(lines)


def main():
    parser = argparse.ArgumentParser(description=__doc__, formatter_class=argparse.RawDescriptionHelpFormatter)
    parser.add_argument("--write", action="store_true")
    parser.add_argument("files", nargs="*", metavar="FILE", type=pathlib.Path)
    given = parser.parse_args()
    wrong, files = 0, given.files or row_files()
    for path in files:
        text = path.read_text(encoding="utf-8")
        if broken(text) == text:
            continue
        if given.write:
            path.write_text(broken(text), encoding="utf-8")
        else:
            print(f"{path.name} has lines of other lengths: tools/break-rows.py --write {path}")
            wrong += 1
    print(f"{len(files)} files, {wrong} wrong")
    return 1 if wrong else 0


if __name__ == "__main__":
    sys.exit(main())
