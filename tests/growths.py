"""Refuses growths of memory that rows ask for, one at a time.

A call of the library whose growth is refused has to say that memory ran out, with its buffer as it was, or to answer as usual. A
program has to end with status 1 and a line that says so, or that a file could not be read or written, or as usual. Of many
growths some are refused, evenly spread. Rows come in a random order, the same each time, until the time is over.
checks/failing-allocations.py runs the program of rows.
"""
import os
import random
import re
import signal
import subprocess
import sys
import time

import programs
from library import DONE, FAULT, MEMORY, TOP, UNTOUCHED
from row_format import LeftOut

sys.path.append(str(TOP / "checks"))
failing = __import__("failing-allocations")

# where there are more growths than the first number, so many are refused as the second says
OF_LIBRARY, OF_PROGRAMS = (200, 100), (60, 40)
# for how long growths are refused, and those of the program of rows
SECONDS, SECONDS_INSIDE = 60, 60
# what is said where memory ran out, also as JSON; that of a path or of a file may be said without its cause
ENDED = re.compile(rb"out of memory|cannot (?:read|write|make directory) ")


def numbers(count):
    """The numbers of the growths that are refused."""
    most, some = OF_LIBRARY
    return range(1, count + 1) if count <= most else sorted({1 + at * (count - 1) // (some - 1) for at in range(some)})


class Refusing:
    """A library whose calls are made again and again, with growths refused: their number, and a line for each wrong answer."""

    def __init__(self, library):
        self.library, self.refused, self.wrong = library, 0, []

    def ask(self, call, *arguments, **how):
        self.library.refuse(0)
        wanted = self.library.ask(call, *arguments, **how)
        if wanted.status in (DONE, FAULT):
            # buffers of less room, which are made for each
            how["room"] = min(how.get("room", wanted.length), wanted.length)
        for number in numbers(self.library.made()):
            self.library.refuse(number)
            got = self.library.ask(call, *arguments, **how)
            self.library.refuse(0)
            self.refused += 1
            if got.status == MEMORY:
                is_right = got.length == 0 and got.buffer == UNTOUCHED * len(got.buffer)
            else:
                is_right = (got.status, got.fault, got.length, got.bytes) == (wanted.status, wanted.fault, wanted.length, wanted.bytes)
            if not is_right:
                self.wrong.append("  %s, growth %d: status %d, fault %d" % (call, number, got.status, got.fault))
        return wanted

    def fault_text(self, call, number):
        return self.library.fault_text(call, number)


class Doors:
    """Doors whose library refuses growths."""

    def __init__(self, doors):
        self.library = Refusing(doors.library)


class Given:
    """What each process has: the rows, the doors, the function that answers a row, and the library that fails allocations."""

    rows, doors, answer, failing, ends = [], None, None, None, 0.0


def of_library(row):
    """How many growths were refused, and lines on what was wrong."""
    doors = Doors(Given.doors)
    Given.answer(row, doors)
    return doors.library.refused, doors.library.wrong


def of_program(row, name):
    """The same of a program; nothing where special files or outputs are what the row is about."""
    special = programs.files_of(row)[1] if name != "wctrim" else programs.special_of(row)
    if special or row.call.endswith(("_failing", "_mute")) or "-" in row.arguments or "/dev/stdin" in " ".join(row.input):
        return 0, []
    folder = programs.module_folder(row) if name == "wctrim" else programs.Folder(*programs.files_of(row))
    try:
        command = [Given.doors.program(name), *row.arguments]
        try:
            runs = list(failing.runs_of(command, Given.failing, folder.path, OF_PROGRAMS))
        except (OSError, subprocess.SubprocessError) as why:
            raise LeftOut("its allocations can't be failed here: %s" % why) from None
        if not runs:
            raise LeftOut("its allocations can't be failed here")
        first, *runs = runs
        wrong = [run for run in runs if not is_wanted(run, first)]
        return len(runs), ["  %s, growth %d: %s, %r" % (name, run.number, run.ended, run.printed[-200:]) for run in wrong]
    finally:
        folder.remove()


def is_wanted(run, first):
    """Whether a run with a growth refused ended as it has to."""
    return (run.ended, run.printed) == (first.ended, first.printed) or run.ended == "status 1" and bool(ENDED.search(run.printed))


def judged(at):
    """How many growths of a row were refused, and what was wrong; None if the time is over."""
    file, name, row = Given.rows[at]
    if time.monotonic() > Given.ends:
        return None
    try:
        refused, wrong = of_library(row) if name == "library" else of_program(row, name)
    except LeftOut:
        return 0, []
    except Exception as why:  # pylint: disable=broad-except
        refused, wrong = 0, ["  %s: %s" % (type(why).__name__, why)]
    return refused, ["%s: %s, where memory may run out:" % (file, row.name), *wrong] if wrong else []


def refuse_outside(rows, doors, answer, spread_over, total):
    """Refuses growths of the library and of the programs; each row where something is wrong is a failed one."""
    has_programs = any(name != "library" for _, name, _ in rows)
    try:
        Given.failing = failing.build(doors.folder) if has_programs else None
    except (OSError, subprocess.CalledProcessError):
        print("growths: not of programs (no cc makes what fails their allocations)")
        rows = [it for it in rows if it[1] == "library"]
    random.Random(1).shuffle(rows)
    Given.rows, Given.doors, Given.answer, Given.ends = rows, doors, answer, time.monotonic() + SECONDS
    refused = asked = 0
    for judgement in spread_over(judged, len(rows)):
        if judgement is not None:
            refused, asked = refused + judgement[0], asked + 1
            total.add(0, bool(judgement[1]))
            print("".join(line + "\n" for line in judgement[1]), end="")
    over = "" if asked == len(rows) else ", of %d: %d seconds were over" % (len(rows), SECONDS)
    print("growths: %d refused in %d rows%s" % (refused, asked, over))


def refuse_inside(program, files, total):
    """Refuses allocations of the program of rows."""
    words = ["--program", program, "--most", "60", "--spread", "40", "--jobs", str(os.cpu_count()), *(path.name for path in files)]
    command = [TOP / "checks" / "failing-allocations.py", *words]
    with subprocess.Popen(command, stdout=subprocess.PIPE, stderr=subprocess.PIPE, text=True, start_new_session=True) as process:
        try:
            said, notes = process.communicate(timeout=SECONDS_INSIDE)
        except subprocess.TimeoutExpired:
            os.killpg(process.pid, signal.SIGKILL)
            said, notes = process.communicate()
    lines = said.splitlines()
    wrong = [line for line in lines if line.startswith("  ") or not line.endswith(" 0 are wrong")]
    print("".join(line + "\n" for line in wrong), end="")
    total.add(0, len(wrong))
    if process.returncode >= 0 and lines:
        print("growths: of %s, %s" % (program.name, lines[-1]))
    elif process.returncode < 0:
        print("growths: of %s in %d files of %d: %d seconds were over" % (program.name, len(lines), len(files), SECONDS_INSIDE))
    else:
        print("growths: not of %s (%s)" % (program.name, (notes.splitlines() or ["no answer"])[-1]))
