#!/usr/bin/env python3
"""Looks for inputs that take more time or memory than their size allows: runs the programs on N, 2 N and 4 N parts.

    slow-inputs.py [--wctrim PROGRAM] [--wcwhy PROGRAM] [--wcplan PROGRAM] [--wc-tests PROGRAM] [--library FOLDER]
                   [--parts N] [--seconds S] [--functions F] [CASE ..]
    slow-inputs.py --write      # the hostile cases, and puts their table into docs/PERFORMANCE.md
    slow-inputs.py --check      # compares that table with bench/figures.json, and runs nothing

The programs are by default those in crates/*/out. Messages go to the static library in FOLDER, or that of tests/rows.py,
through message.c. A case is a shape of worlds, modules, keys or messages of 512 parts, or N, times its own factor
(slow_cases.py); `chosen NAME` has names that are chosen to collide (chosen_names.py). CASE is a case or its first word, a
program or `message`, `hostile` for the cases of the page's table, or `chosen`.

A line has the kilobytes in and out of 4 N; and for N, 2 N and 4 N the millions of instructions by callgrind, and the peak of
memory in megabytes. A step from N to 2 N, or from 2 N to 4 N, is how many times as much is taken; its limit is the growth of
n log n and a tenth more, at least 2.3. For instructions n is the bytes in and out; for memory, from 8 MB on, the bytes in. The
line has the step that is closest to its limit. Chosen names may take 1.5 times what plain names take. A run of more than S
seconds (120) is stopped. --functions prints the F functions that take most instructions. The status is 1 if a case is past a
limit or stopped.
"""
import argparse
import math
import os
import pathlib
import re
import resource
import shutil
import signal
import subprocess
import sys

TOP = pathlib.Path(__file__).resolve().parent.parent
sys.path += [str(TOP / "bench"), str(TOP / "checks"), str(TOP / "tests")]
import chosen_names
import library
import stored_figures
from row_format import LeftOut
from slow_cases import CASES, HOSTILE
from slow_shapes import FOLDER, OUT, ROWS

GRIND, PEAK, MESSENGER = (str(FOLDER / file) for file in ("callgrind.out", "peak", "message"))
TIME = "/usr/bin/time"
PROGRAMS = "wctrim", "wcwhy", "wcplan", "wc_tests"
# how many times the parts are measured, and how much more than n log n a step may take
SIZES = 1, 2, 4
PARTS, GROWTH, SLACK, EXCESS = 512, 2.3, 1.1, 1.5
# peaks below are mostly those of the program itself
LEAST_PEAK = 8.0
TITLES = "%-30s %6s %8s %8s %9s %9s %9s %6s %6s %7s %7s %7s %6s %6s"
LINE = "%-30s %6d %8.0f %8.0f %9.1f %9.1f %9.1f %6.2f %6.2f %7.1f %7.1f %7.1f %6.2f %6.2f  %s"
# what the page says of a case that is past a limit
PAST = {"grows": "instructions", "swells": "memory"}
HEAD = ("| Shape | n | Bytes in; printed, of 4 n | Millions of instructions, n; 2 n; 4 n | Step | Limit | Memory, MB, n; 2 n; 4 n "
        "| Step | Limit | Within |")


def add_chosen(title, program, make, keys, most):
    """Adds a case of names that collide, at most so many, and keeps how its input is made of plain ones."""

    def made(count, plain=0):
        count = min(count, most) if most else count
        return make(keys(count, count)[plain])

    CASES["chosen " + title] = program, 2.0, made


def limited(seconds):
    """Has the system kill a process that takes more than so many seconds of the processor."""
    resource.setrlimit(resource.RLIMIT_CPU, (seconds, seconds))


def size_of(words, stdin):
    """The bytes of the files that a command reads, and of its arguments."""
    files = [word.rpartition("=")[2] for word in words]
    return sum(map(len, words)) + sum(os.path.getsize(file) for file in [*files, stdin] if os.path.isfile(file))


def grown(sizes):
    """How many times as much n log n is, from each size to the next."""
    costs = [size * math.log2(size) for size in sizes]
    return [large / small for small, large in zip(costs, costs[1:])]


class Step:
    """The step from one size to the next that is closest to its limit: how many times as much it takes, and the limit. Whether
    one is past it, of those that lead to more than the least that counts."""

    def __init__(self, costs, sizes, least=0.0):
        steps = [(large / max(small, 1e-3), max(GROWTH, SLACK * limit))
                 for small, large, limit in zip(costs, costs[1:], grown(sizes))]
        self.growth, self.limit = max(steps, key=lambda step: step[0] / step[1])
        self.is_past = any(growth > limit and cost > least for (growth, limit), cost in zip(steps, costs[1:]))


class Run:
    """What a program takes of an input: the bytes that it reads and that it prints, the millions of instructions, and the
    megabytes of memory at its peak. `is_stopped`, where it took too long."""

    def __init__(self, asked, program, words, stdin):
        self.is_stopped = False
        # what an earlier run wrote is no input of this one
        pathlib.Path(OUT).unlink(missing_ok=True)
        self.read = size_of(words, stdin)
        timed = [TIME, "-f", "%M", "-o", PEAK, program, *words]
        with open(stdin, "rb") as file:
            ran = subprocess.run(timed, stdin=file, capture_output=True, check=False,
                                 preexec_fn=lambda: limited(asked.seconds))
        self.printed = len(ran.stdout)
        if ran.returncode == 128 + signal.SIGKILL:
            self.is_stopped = True
            return
        if ran.returncode or re.search(rb"^out (fault|bad row|out of memory)|^status [1-9]", ran.stdout, re.MULTILINE):
            said = (ran.stdout + ran.stderr).decode(errors="replace")[-500:]
            sys.exit("%s %s: %s" % (program, " ".join(words)[:200], said))
        with open(PEAK, encoding="utf-8") as file:
            self.peak = int(file.read()) * 1024 / 1e6
        grind = ["valgrind", "--tool=callgrind", "--callgrind-out-file=" + GRIND, program, *words]
        with open(stdin, "rb") as file:
            ran = subprocess.run(grind, stdin=file, capture_output=True, check=False,
                                 preexec_fn=lambda: limited(100 * asked.seconds))
        if ran.returncode == -signal.SIGKILL:
            self.is_stopped = True
            return
        if ran.returncode or len(ran.stdout) != self.printed:
            sys.exit("%s %s: status %d under callgrind, %d bytes: %s" % (program, " ".join(words)[:200], ran.returncode, len(ran.stdout), ran.stderr.decode(errors="replace")[-500:]))
        self.instructions = int(re.search(rb"Collected : ([0-9]+)", ran.stderr).group(1)) / 1e6


def costly(count):
    """The functions in which the last run took most instructions."""
    said = subprocess.run(["callgrind_annotate", GRIND], capture_output=True, text=True, check=False).stdout
    lines = [line for line in said.splitlines() if re.match(r"\s*[0-9,]+ \(", line) and "PROGRAM TOTALS" not in line]
    return ["    " + line.strip()[:150] for line in lines[:count]]


def run_case(asked, title, many):
    """Runs a case of so many parts; after them, whether names are plain ones."""
    program, words = CASES[title][0], CASES[title][2](*many)
    if program == "message":
        return Run(asked, MESSENGER, words, os.devnull)
    return Run(asked, getattr(asked, program), words, ROWS if words == ["-"] else os.devnull)


def compare(asked, title):
    """Measures a case, and prints its line: what is stored of it, and in which ways it is past a limit."""
    count, is_chosen = max(int(asked.parts * CASES[title][1]), 1), title.startswith("chosen ")
    runs = []
    for many in [(size * count,) for size in SIZES] + [(SIZES[-1] * count, 1)] * is_chosen:
        runs.append(run_case(asked, title, many))
        if runs[-1].is_stopped:
            print("%-30s %6d stopped after %d s" % (title, many[0], asked.seconds), flush=True)
            return {"n": count, "stopped": many[0]}, ["stopped"]
    plain, runs = runs[-1], runs[: len(SIZES)]
    instructions, peaks = [run.instructions for run in runs], [run.peak for run in runs]
    time = Step(instructions, [run.read + run.printed for run in runs])
    memory = Step(peaks, [run.read for run in runs], LEAST_PEAK)
    missed = ["grows"] * time.is_past + ["swells"] * memory.is_past
    excess = instructions[-1] / plain.instructions if is_chosen else 0
    missed += ["exceeds"] * (excess > EXCESS)
    sizes = runs[-1].read / 1e3, runs[-1].printed / 1e3
    words = " ".join(["%.2f" % excess] * is_chosen + missed)
    print(LINE % (title, count, *sizes, *instructions, time.growth, time.limit, *peaks, memory.growth, memory.limit, words), flush=True)
    if asked.functions:
        print("\n".join(costly(asked.functions)), flush=True)
    row = {"n": count, "read": runs[-1].read, "printed": runs[-1].printed, "past": missed}
    row.update(instructions=[round(it, 1) for it in instructions], memory=[round(it, 1) for it in peaks])
    row.update(instructions_step=[round(time.growth, 2), round(time.limit, 2)])
    row.update(memory_step=[round(memory.growth, 2), round(memory.limit, 2)])
    return row, missed


# The table


def listed(values):
    """Figures of N, 2 N and 4 N, with a digit after the point where one is small."""
    return "; ".join("%.1f" % it if it < 100 else "{:,.0f}".format(it) for it in values)


def table(figures):
    """The lines on the page: when it was measured, and the table of the hostile cases."""
    lines = [stored_figures.heading(figures), "", HEAD, "|---" * (HEAD.count("|") - 1) + "|"]
    for title, row in figures["rows"].items():
        cells = [HOSTILE[title], "{:,}".format(row["n"])]
        if "stopped" in row:
            cells += [""] * 7 + ["no: stopped at {:,}".format(row["stopped"])]
        else:
            cells += ["{:,}; {:,}".format(row["read"], row["printed"])]
            for what in "instructions", "memory":
                cells += [listed(row[what]), *("%.2f" % it for it in row[what + "_step"])]
            cells.append("no: " + " and ".join(PAST[it] for it in row["past"]) if row["past"] else "yes")
        lines.append("| %s |" % " | ".join(cells))
    return "\n".join(lines)


def words_of(titles):
    """The words that stand for these cases: their programs, their names, and what begins these."""
    words = [word for title in titles for word in (CASES[title][0], title, title.split()[0])]
    words += ["hostile"] if set(titles) & set(HOSTILE) else []
    return list(dict.fromkeys(words))


def arguments():
    for title, held in chosen_names.CASES.items():
        add_chosen(title, *held)
    parser = argparse.ArgumentParser(description=__doc__, formatter_class=argparse.RawDescriptionHelpFormatter)
    for program in PROGRAMS:
        path = TOP / "crates" / program / "out" / program
        parser.add_argument("--" + program.replace("_", "-"), type=os.path.abspath, default=str(path))
    parser.add_argument("--library", metavar="FOLDER")
    parser.add_argument("--parts", type=int, default=PARTS)
    parser.add_argument("--seconds", type=int, default=120)
    parser.add_argument("--functions", type=int, default=0)
    parser.add_argument("--write", action="store_true")
    parser.add_argument("--check", action="store_true")
    parser.add_argument("cases", nargs="*", metavar="CASE", help=", ".join(words_of(CASES)))
    asked = parser.parse_args()
    for text in asked.cases:
        if text not in words_of(CASES):
            parser.error("no case %s" % text)
    if asked.write and asked.cases:
        parser.error("--write is of the hostile cases")
    return asked


def make_messenger(folder):
    """Compiles message.c over the static library, that of a folder where one is named."""
    try:
        archive = os.path.join(folder, "libnuigatre.a") if folder else str(library.archive_of(FOLDER, False, False)[0])
    except LeftOut as why:
        sys.exit("%s; --library names the folder of one" % why)
    include = str(TOP / "include")
    sources = [str(TOP / "bench" / "message.c"), os.path.join(include, "nuigatre_heap.c")]
    command = ["cc", "-O2", "-I" + include, *sources, archive, "-o", MESSENGER]
    ran = subprocess.run(command, capture_output=True, text=True, check=False)
    if ran.returncode:
        sys.exit("%s\n%s" % (" ".join(command), ran.stderr))


def main():
    asked = arguments()
    if asked.check:
        return stored_figures.check("slow", table)
    load, wanted = os.getloadavg()[0], ["hostile"] if asked.write else asked.cases
    titles = [title for title in CASES if not wanted or set(words_of([title])) & set(wanted)]
    for tool in "valgrind", TIME:
        if not shutil.which(tool):
            sys.exit("%s is missing: it counts instructions or memory" % tool)
    for program in sorted({CASES[title][0] for title in titles} & set(PROGRAMS)):
        if not os.path.exists(getattr(asked, program)):
            sys.exit("%s is missing: build it, or name another" % getattr(asked, program))
    if any(CASES[title][0] == "message" for title in titles):
        make_messenger(asked.library)
    print(TITLES % ("case", "N", "kB 4N", "out 4N", "N", "2N", "4N", "step", "limit", "MB N", "MB 2N", "MB 4N", "step", "limit"))
    rows, past = {}, 0
    for title in titles:
        rows[title], missed = compare(asked, title)
        past += bool(missed)
    print("%d of %d cases past a limit" % (past, len(titles)))
    if asked.write:
        stored_figures.write("slow", rows, load, table)
    return 1 if past else 0


if __name__ == "__main__":
    sys.exit(main())
