#!/usr/bin/env python3
"""Runs each row of the program of rows with its first allocation failing, then its second, and so on.
`tests/rows.py --growths` does so with the rows of tests/rows.

    failing-allocations.py [--program PROGRAM] [--most N] [--spread N] [--jobs N] [FILE.rows[:ROW] ..]

The files are those of crates/wc_tests/data (default: all), and PROGRAM is crates/wc_tests/out/wc_tests, which `rt run` builds
there. A library that cc compiles and that is loaded before the C library fails the allocations, each in a process of its
own. If a row has more than --most allocations (30,000), only --spread of them (1,000), evenly spread, are failed, and the
row has its own line. --jobs rows run at once.

Each run is one of these kinds:

    memory   the row's answer says that memory ran out, after lines that the row wants; after none, if its call is in WHOLE.
             If a row has a line for each of several calls, one of these lines says so
    rows     the answer is the usual one: the library did without the room that it asked for ahead
    program  the program of rows itself ran out of memory, outside the calls or where a call returns AllocError
    wrong    anything else, such as a run that hung or was killed

Printed are the number and the end of each wrong run, and a line for each file that counts the runs. The status is 1 if one
was wrong.
"""
import argparse
import concurrent.futures
import os
import pathlib
import re
import subprocess
import sys
import tempfile

from row_format import rows_of

TOP = pathlib.Path(__file__).resolve().parent.parent
CRATE = TOP / "crates" / "wc_tests"
SECONDS = 60
KINDS = ("memory", "rows", "program", "wrong")

# Calls with one answer, which is all there or not at all.
WHOLE = {
    "frames", "read_imports", "read_module", "read_body", "read_init", "write_import_section", "append_import_section",
    "rewrite_import_section", "write_body", "write_module", "raw_section", "append_raw_section", "dedupe",
    "dedupe_owned", "read_deduped", "dedupe_imports", "liveness_counted", "trim", "trim_for",
    "realloc_via_memory_grow", "allocate_stack_via_realloc", "component_world", "plan", "validate_module",
    "validate_adapter_module", "resolve_build", "encoder_build", "document",
}

# How a line ends that says that memory ran out, also where it is JSON, with the module of an adapter or without.
ENDED = re.compile(r'out of memory(","place":(null|\{[^{}]*\})\})?$')


def build(folder):
    """The library that fails allocations."""
    source, library = TOP / "checks" / "failing.c", folder / "failing.so"
    flags = ["-O1", "-fPIC", "-shared", "-DSECONDS=%d" % SECONDS]
    subprocess.run(["cc", *flags, "-o", library, source], check=True)
    return library


class Run:
    """A run: the number of the allocation that failed, how many there were, how the program ended, and what it printed."""

    def __init__(self, number, status, made, printed):
        self.number, self.made, self.printed = number, made, printed
        self.ended = "status %d" % os.WEXITSTATUS(status) if os.WIFEXITED(status) else "signal %d" % os.WTERMSIG(status)


def runs_of(command, library, folder, limits, stdin=subprocess.DEVNULL):
    """All runs of a command, the first without a failure. Past the first of the limits as many allocations fail as the second says."""
    with tempfile.NamedTemporaryFile() as report:
        variables = {"LD_PRELOAD": str(library), "REPORT_FILE": report.name, "MOST": str(limits[0]), "SPREAD": str(limits[1])}
        subprocess.run(command, cwd=folder, env=variables, stdin=stdin, check=True)
        data = report.read()
    place = 0
    while place < len(data):
        end = data.index(b"\n", place)
        words = data[place:end].decode().split()
        number, status, made, length = (int(word) for word in words[1:5])
        yield Run(number, status, made, data[end + 1:end + 1 + length])
        place = end + 1 + length


def verdict(row, run, wanted):
    """What a run shows: one of KINDS."""
    if run.ended == "status 0" and run.printed == wanted:
        return "rows"
    lines = run.printed.decode(errors="replace").splitlines()
    if run.ended != "status 1" or not lines:
        return "wrong"
    if lines[-1] == "wc_tests: out of memory" or lines[-1].endswith(": cannot be read"):
        return "program"
    return "memory" if is_memory(row, lines) else "wrong"


def is_memory(row, lines):
    """Whether the answer has what is wanted up to a line that says that memory ran out."""
    expected = [line[len("  expected "):] for line in lines[1:-1] if line.startswith("  expected ")]
    actual = [line[len("  actual   "):] for line in lines[1:-1] if line.startswith("  actual   ")]
    if lines[0] != "alone.rows: %s differs" % row.name or lines[-1] != "alone.rows: 0 of 1 rows agree":
        return False
    if len(expected) + len(actual) != len(lines) - 2 or not actual:
        return False
    for place, line in enumerate(actual):
        if ENDED.search(line):
            # a row with `explain` has the fault and then what it is about
            return actual[:place] == expected[:place] and (place == 0 or row.call not in WHOLE or "explain" in row.arguments)
    # an answer that has a line for each of several calls
    return len(actual) == len(expected) and all(
        line == other or "out of memory" in line for line, other in zip(actual, expected))


class Count:
    """The runs over some rows: how many allocations, how many runs of each kind, and lines on those that are wrong."""

    def __init__(self, allocations=0):
        self.allocations, self.seen, self.lines = allocations, dict.fromkeys(KINDS, 0), []

    def add(self, other):
        self.allocations += other.allocations
        self.lines += other.lines
        for kind in KINDS:
            self.seen[kind] += other.seen[kind]


def sweep(program, library, row, limits):
    """All runs of a row, which is written into a file of its own."""
    with tempfile.TemporaryDirectory() as folder:
        pathlib.Path(folder, "alone.rows").write_text(row.text(), encoding="utf-8")
        return count_of(row, list(runs_of([program, "alone.rows"], library, folder, limits)))


def count_of(row, runs):
    """What the runs of a row show."""
    first, *runs = runs
    found = Count(first.made)
    if first.ended != "status 0":
        found.lines.append("  %s: %s with no failure" % (row.name, first.ended))
        found.lines += ["    " + line for line in first.printed.decode(errors="replace").splitlines()]
        found.seen["wrong"] += 1
        return found
    for run in runs:
        kind = verdict(row, run, first.printed)
        found.seen[kind] += 1
        if kind == "wrong":
            found.lines.append("  %s, allocation %d: %s" % (row.name, run.number, run.ended))
            found.lines += ["    " + line for line in run.printed.decode(errors="replace").splitlines()
                            if line.endswith(" differs") or line.startswith("  actual")]
    return found


def shown(name, count):
    """A line for a file, or for a row of it."""
    numbers = (name, count.allocations) + tuple(count.seen[kind] for kind in KINDS)
    return "%s: %d allocations; of the runs %d answer memory, %d the rows, %d end the program, %d are wrong" % numbers


def chosen(words):
    """The files that are asked for, with their rows."""
    for word in words or sorted(path.name for path in (CRATE / "data").glob("*.rows")):
        name, _, only = word.partition(":")
        rows = rows_of(CRATE / "data" / name)
        yield name, [row for row in rows if not only or row.name == only]


def main():
    asked = argparse.ArgumentParser(description=__doc__, formatter_class=argparse.RawDescriptionHelpFormatter)
    asked.add_argument("--program", type=os.path.abspath, default=str(CRATE / "out" / "wc_tests"))
    asked.add_argument("--most", type=int, default=30000)
    asked.add_argument("--spread", type=int, default=1000)
    asked.add_argument("--jobs", type=int, default=1)
    asked.add_argument("files", nargs="*")
    asked = asked.parse_args()
    if not os.path.exists(asked.program):
        sys.exit("%s is missing: `rt run` in %s builds it" % (asked.program, CRATE))
    whole = Count()
    with tempfile.TemporaryDirectory() as folder, concurrent.futures.ProcessPoolExecutor(asked.jobs) as pool:
        library = build(pathlib.Path(folder))
        waiting = [(name, [(row, pool.submit(sweep, asked.program, library, row, (asked.most, asked.spread))) for row in rows])
                   for name, rows in chosen(asked.files)]
        for name, results in waiting:
            inside, large = Count(), []
            for row, result in results:
                found = result.result()
                if found.allocations > asked.most:
                    large.append(("%s: %s" % (name, row.name), found))
                else:
                    inside.add(found)
            for shown_name, count in [(name, inside)] * (len(large) < len(results)) + large:
                whole.add(count)
                print("\n".join(count.lines + [shown(shown_name, count)]), flush=True)
    print(shown("all", whole))
    sys.exit(1 if whole.seen["wrong"] else 0)


if __name__ == "__main__":
    main()
