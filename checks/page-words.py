#!/usr/bin/env python3
"""Counts the words of all pages, which may not become more than LIMIT.

    checks/page-words.py [--pages]

Pages are the files *.md that git lists, or would add, without those in unfinished/. A word is what `wc -w` counts; blocks
between ``` are left out. With --pages each page is printed with its words, most first, and the number of doc comment lines
in crates/*/src that have more than 120 columns. The status is 1 where the pages have more words than LIMIT.
"""
import argparse
import re
import subprocess
import sys
import pathlib

TOP = pathlib.Path(__file__).resolve().parent.parent
# The aim is 75,000. While the pages have more, this is their count, rounded up to the next thousand: it may only fall.
AIM, LIMIT = 75_000, 75_000
COLUMNS = 120


def pages():
    """The pages and their words."""
    listed = subprocess.run(["git", "ls-files", "-co", "--exclude-standard", "*.md"], cwd=TOP, capture_output=True, text=True, check=True)
    for name in sorted(set(listed.stdout.splitlines())):
        if not name.startswith("unfinished/") and (TOP / name).is_file():
            text = (TOP / name).read_text(encoding="utf-8")
            yield name, len(re.sub(r"(?ms)^ *```.*?^ *```[^\n]*$", "", text).split())


def long_docs():
    """How many lines of docs in the sources are too long."""
    return sum(bool(re.match(r"\s*//[/!]", line)) and len(line) > COLUMNS for path in (TOP / "crates").glob("*/src/**/*.rt")
               for line in path.read_text(encoding="utf-8").splitlines())


def main():
    parser = argparse.ArgumentParser(description=__doc__, formatter_class=argparse.RawDescriptionHelpFormatter)
    parser.add_argument("--pages", action="store_true")
    given = parser.parse_args()
    counts = dict(pages())
    total = sum(counts.values())
    if given.pages:
        for name, words in sorted(counts.items(), key=lambda it: -it[1]):
            print("%6d  %s" % (words, name))
        print("%d lines of docs in crates/*/src have more than %d columns" % (long_docs(), COLUMNS))
    print("%d words in %d pages; at most %d; the aim is %d" % (total, len(counts), LIMIT, AIM))
    lower = max(AIM, -(-total // 1000) * 1000)
    if lower < LIMIT:
        print("LIMIT can be %d now" % lower)
    return 1 if total > LIMIT else 0


if __name__ == "__main__":
    sys.exit(main())
