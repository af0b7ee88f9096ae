#!/usr/bin/env python3
"""Asks the rows of tests, and compares the answers.

    tests/rows.py [--all | --proved | --checked] [--growths] [--library FILE] [--program NAME=FILE] [FILE.rows[:ROW] ..]
    tests/rows.py [..] -

docs/ROWS.md says what a row is. Rows of tests/rows are asked of the library, through ctypes, and of wctrim, wcwhy and wcplan;
rows of crates/wc_tests/data of the program of rows, wc_tests. The default is all; a name stands for the file of that name in both
folders. With - rows are read from standard input, and each is printed with its answer.

The library is the one proved in this checkout (crates/nuigatre/out), else the packed one (rust/nuigatre/lib), if it is made of
these sources, else one compiled without its proof. A program is the proved one, else one compiled without its proof. What is
missing and can't be compiled, without rt on PATH, is left out, and so is a row for which the machine lacks something; a line
says how many rows, and why. --proved takes only what is proved. --all takes only what was proved in this checkout, and fails
if that lacks something; the merge gate runs it. --checked takes programs that check each access of memory. --library names a
shared library with tests/heap.c in it.

Each failed row is printed, with its file. The last line is `N passed, M failed`; the status is 1 if a row failed. --growths also
refuses growths of memory (tests/growths.py), for two minutes at most.
"""
import argparse
import collections
import concurrent.futures.process
import multiprocessing
import os
import pathlib
import re
import shutil
import subprocess
import sys
import tempfile

TOP = pathlib.Path(__file__).resolve().parent.parent
sys.path[:0] = [str(TOP / "tools"), str(TOP / "checks")]
import calls
import growths
import library
import messages
import programs
from row_format import BadRow, LeftOut, Missing, rows_in, rows_of

CALLS = {**calls.CALLS, **messages.CALLS, **programs.CALLS}
OUTSIDE = TOP / "tests" / "rows"
INSIDE = TOP / "crates" / "wc_tests" / "data"
PROGRAM = "wc_tests"
# the scripts of the programs
SCRIPTS = {"wctrim": "wctrim", "wcwhy": "wcwhy", "wcplan": "wcplan", PROGRAM: "wctests"}
AGREE = re.compile(r"^(.*): (\d+) of (\d+) rows agree$", re.M)


class Doors:
    """The library and the programs, each found when it is first asked for."""

    def __init__(self, given, folder):
        self.given, self.folder, self.found = given, folder, {}
        self.named, self.is_checked = dict(word.split("=", 1) for word in given.program), given.checked

    def known(self, name, find):
        """What `find` returns, asked once; a LeftOut if there is none."""
        if name not in self.found:
            try:
                self.found[name] = find()
            except LeftOut as why:
                self.found[name] = why
        if isinstance(self.found[name], LeftOut):
            raise self.found[name]
        return self.found[name]

    @property
    def library(self):
        return self.known("library", self.find_library)

    def find_library(self):
        if self.given.library:
            return library.Library(self.given.library, "given")
        return library.library(self.folder, self.given.all, self.given.proved)

    def program(self, name):
        """The path of a program."""
        return self.known(name, lambda: self.find_program(name))

    def find_program(self, name):
        path = pathlib.Path(self.named.get(name) or self.path_of(name)).absolute()
        if not path.is_file():
            raise Missing("%s is missing" % path)
        return path

    def path_of(self, name):
        """The program that its script runs, compiled where it has to be."""
        script, how = TOP / SCRIPTS[name], []
        if self.given.proved or self.given.all:
            how = ["--proved"]
        elif self.given.checked:
            how = ["--checked"]
        # what is said while it is compiled is passed on
        is_quiet = how == ["--proved"] or shutil.which("rt") is None
        ran = subprocess.run([script, *how, "--where"], stdout=subprocess.PIPE, stderr=subprocess.PIPE if is_quiet else None, text=True, check=False)
        if ran.returncode:
            raise Missing("no program; ./%s --build makes it" % script.name)
        return ran.stdout.strip()


def answer(row, doors):
    """The lines of a row's answer."""
    try:
        if row.flaw:
            raise BadRow(*row.flaw)
        if row.call not in CALLS:
            raise BadRow("no call", row.call)
        return CALLS[row.call](row, doors)
    except BadRow as why:
        return ["bad row: %s" % why]


class Asked:
    """The rows that are asked of the library and of programs, with their files, and the doors; each process has a copy."""

    rows, doors = [], None


def door_of(row):
    """What a row is asked of."""
    return next((name for name in SCRIPTS if row.call.startswith(name)), "wctrim" if row.call == "run_program" else "library")


def judged(at):
    """What differs in a row's answer, or None; and why the row is left out, or None."""
    file, row = Asked.rows[at]
    try:
        lines = answer(row, Asked.doors)
    except LeftOut as why:
        return None, why
    except Exception as why:  # pylint: disable=broad-except
        lines = ["%s: %s" % (type(why).__name__, why)]
    if lines == row.answer:
        return None, None
    wanted, actual = ["  expected " + line for line in row.answer], ["  actual   " + line for line in lines]
    return "\n".join(["%s: %s differs" % (file, row.name), *wanted, *actual]), None


class Total:
    """How many rows passed and failed, and how many are left out of what, and why."""

    def __init__(self):
        self.passed, self.failed, self.left, self.missing = 0, 0, collections.Counter(), 0
        self.answers = collections.Counter()

    def leave(self, name, why, count=1):
        """Leaves out rows of a program or of the library, for a LeftOut."""
        self.left[name, str(why)] += count
        self.missing += count * isinstance(why, Missing)

    def add(self, passed, failed):
        self.passed, self.failed = self.passed + passed, self.failed + failed


def spread_over(function, count):
    """What a function returns for each number, in processes of their own."""
    try:
        # copies of this one, which have what it found
        copies = multiprocessing.get_context("fork")
        pool = concurrent.futures.ProcessPoolExecutor(os.cpu_count(), mp_context=copies)
        results = pool.map(function, range(count), chunksize=8)
    except (ImportError, NotImplementedError, OSError):
        # the machine has no others
        yield from map(function, range(count))
        return
    with pool:
        try:
            yield from results
        except concurrent.futures.process.BrokenProcessPool:
            sys.exit("a call of the library ended the process that made it")


def take(doors, files):
    """The rows of files that are asked of the library and of the programs; these are found, so that each process has them."""
    Asked.doors = doors
    Asked.rows = [(path.name, row) for path, only in files for row in rows_of(path) if not only or row.name == only]
    for name in {door_of(row) for _, row in Asked.rows}:
        try:
            doors.library if name == "library" else doors.program(name)  # pylint: disable=expression-not-assigned
        except LeftOut:
            pass


def ask_outside(doors, files, total):
    """Asks the rows of the library and of the programs."""
    take(doors, files)
    agreed, rows = collections.Counter(), collections.Counter()
    for (file, row), (differs, left) in zip(Asked.rows, spread_over(judged, len(Asked.rows))):
        rows[file] += left is None
        agreed[file] += differs is None and left is None
        total.answers[door_of(row)] += left is None
        if left:
            total.leave(door_of(row), left)
        if differs:
            print(differs)
    for file, count in rows.items():
        if count:
            print("%s: %d of %d rows agree" % (file, agreed[file], count))
        total.add(agreed[file], count - agreed[file])


def refuse(doors, outside, inside, total):
    """Refuses growths of memory in the rows of these files."""
    take(doors, outside)
    rows = [(file, door_of(row), row) for file, row in Asked.rows if not row.flaw]
    growths.refuse_outside(rows, doors, answer, spread_over, total)
    if inside:
        try:
            growths.refuse_inside(doors.program(PROGRAM), [path for path, _ in inside], total)
        except LeftOut as why:
            print("growths: not of %s (%s)" % (PROGRAM, why))


def alone(folder, path, name):
    """A file of one row of a file."""
    (folder / path.name).write_text("\n".join(row.text() for row in rows_of(path) if row.name == name), encoding="utf-8")
    return folder / path.name


def ask_inside(doors, files, total):
    """Asks the program of rows."""
    paths = [alone(doors.folder, path, only) if only else path for path, only in files]
    count = sum(len(rows_of(path)) for path in paths)
    try:
        program = doors.program(PROGRAM)
    except LeftOut as why:
        total.leave(PROGRAM, why, count)
        return
    words = [path if only else path.name for path, (_, only) in zip(paths, files)]
    ran = subprocess.run([program, *words], cwd=INSIDE, stdout=subprocess.PIPE, stdin=subprocess.DEVNULL, text=True, check=False)
    print(ran.stdout, end="")
    counts = [(int(agreed), int(rows)) for _, agreed, rows in AGREE.findall(ran.stdout)]
    asked, agreed = sum(rows for _, rows in counts), sum(agreed for agreed, _ in counts)
    # the rows of files that it didn't come to are failed ones
    total.add(agreed, max(asked, count) - agreed)
    if asked < count:
        print("%s: ended with status %d after %d of %d rows" % (PROGRAM, ran.returncode, asked, count))


def print_answers(doors, text):
    """Prints each row of a text with its answer; the status. Where one has a call of the program of rows, that answers all."""
    rows = rows_in(text)
    if any(not row.flaw and row.call not in CALLS for row in rows):
        try:
            return subprocess.run([doors.program(PROGRAM), "-"], input=text, text=True, check=False).returncode
        except LeftOut as why:
            print("no row is answered (%s)" % why)
            return 1
    for row in rows:
        print("\n".join(["row " + row.name, *("out " + line for line in answer(row, doors)), ""]))
    return 0


def listed():
    """The files of rows of the program of rows, in its order."""
    return [INSIDE / name for name in (INSIDE.parent / "args").read_text(encoding="utf-8").split()]


def chosen(words, total):
    """The files to ask, of each kind, with the one row that is asked, where one is named. One that is missing is a failed one."""
    outside, inside = [], []
    for word in words:
        name, _, only = word.partition(":")
        here = [pathlib.Path(name).resolve()] if "/" in name or os.path.isfile(name) else [OUTSIDE / name, INSIDE / name]
        paths = [path for path in here if path.is_file()]
        if not paths:
            print(name + ": cannot be read")
            total.add(0, 1)
        elif only:
            paths = [path for path in paths if any(row.name == only for row in rows_of(path))]
            if not paths:
                print("%s: no row %s" % (name, only))
                total.add(0, 1)
        for path in paths:
            (inside if path.parent == INSIDE else outside).append((path, only))
    return outside, inside


def arguments():
    parser = argparse.ArgumentParser(description=__doc__, formatter_class=argparse.RawDescriptionHelpFormatter)
    how = parser.add_mutually_exclusive_group()
    for name in "all", "proved", "checked":
        how.add_argument("--" + name, action="store_true")
    parser.add_argument("--growths", action="store_true")
    parser.add_argument("--library", metavar="FILE", type=os.path.abspath)
    parser.add_argument("--program", metavar="NAME=FILE", action="append", default=[])
    parser.add_argument("files", nargs="*", metavar="FILE.rows[:ROW]")
    given = parser.parse_args()
    if any(word.partition("=")[0] not in SCRIPTS or "=" not in word for word in given.program):
        parser.error("a program is NAME=FILE, of " + " ".join(SCRIPTS))
    return given


def main():
    given, total = arguments(), Total()
    with tempfile.TemporaryDirectory(prefix=programs.PREFIX) as folder:
        doors = Doors(given, pathlib.Path(folder))
        if given.files == ["-"]:
            return print_answers(doors, sys.stdin.read())
        outside, inside = chosen(given.files or [*map(str, sorted(OUTSIDE.glob("*.rows"))), *map(str, listed())], total)
        if outside:
            ask_outside(doors, outside, total)
        if inside:
            ask_inside(doors, inside, total)
        if given.growths:
            refuse(doors, outside, inside, total)
    for (name, why), count in sorted(total.left.items()):
        print("left out: %d rows of %s (%s)" % (count, name, why))
    if given.all:
        # where a machine allows none of its rows, a program wasn't tried
        total.failed += total.missing or sum(count for (name, _), count in total.left.items() if not total.answers[name])
    print("%d passed, %d failed" % (total.passed, total.failed))
    return 1 if total.failed else 0


if __name__ == "__main__":
    sys.exit(main())
