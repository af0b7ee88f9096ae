#!/usr/bin/env python3
"""Times `wctrim trim` and `wctrim dedupe` on modules of several shapes, and checks what they wrote.

    trimming.py [--program PROGRAM] [--beside PROGRAM] [--floor PROGRAM] [--instructions] [--rounds N] [--most COUNT]
        [SHAPE|FILE ..]
    trimming.py --instructions --write      # the rows of the table in docs/PERFORMANCE.md, and puts them there
    trimming.py --check                     # compares that table with bench/figures.json, and runs nothing

PROGRAM is crates/wctrim/out/wctrim by default. The shapes are those of checks/adapter_shapes.py, which are trimmed, and
`repeats` and `mixed` of generate.py, whose imports are renamed; each with its largest count, a tenth and a hundredth of it, and
at most COUNT items. A FILE that ends in .wasm is an adapter, trimmed to all its exports and to four of them. A line has the
items, the bytes in and out, the fastest of N runs (5), the nanoseconds and the memory for each byte, if GNU's time is
installed; and the time of wasm-metadce, if that is.

--instructions adds the millions of instructions by callgrind, and a line for the shape's floor, a run of floors.c (or of
--floor, compiled already), with how many times as many the program takes. --beside adds a line for another build. All have to
write the same bytes and lines.

Each output, given to the program again, has to stay as it is, unless it has a start function; and wasm-validate has to accept
it, if it accepts the module (it refuses `globals`). The status is 1 if something differs. --write leaves out times, since they
mean something on an idle machine alone, and keeps the column `before`.
"""
import argparse
import json
import os
import pathlib
import re
import shutil
import subprocess
import sys
import time

TOP = pathlib.Path(__file__).resolve().parent.parent
sys.path += [str(TOP / "checks"), str(TOP / "bench")]
import stored_figures
from adapter_shapes import SHAPES
from generate import RENAMED
from module_bytes import exported_names, sections

TIME = "/usr/bin/time"
PROGRAM = TOP / "crates" / "wctrim" / "out" / "wctrim"
FOLDER = TOP / "bench" / "data" / "trimming"
FLOORS = TOP / "bench" / "floors.c"
# the section of the start function
START = 8
# the rows of the table: the shapes and what they are called
TITLES = {
    "chain": "functions, each of which calls the second after it",
    "backward": "functions, each of which calls the second before it",
    "shuffled": "functions, each of which calls another of every second one, in random order",
    "exports": "exports of a tenth as many functions",
    "imports": "imported functions",
    "globals": "globals, each initialised by the second before it",
    "types": "types",
    "body": "one body",
    "memory": "loads and stores in one body",
    "blocks": "nested blocks in one body",
    "labels": "labels of a `br_table`",
    "calls": "calls in one body, each of another function",
    "call": "calls in one body, all of one function",
    "repeats": "`dedupe`: imports of one name",
    "mixed": "`dedupe`: imports of 5,000 names in 50 modules, in random order",
}
# no more items than these in a row
MOST = {shape: 100_000 for shape in ("chain", "backward", "shuffled")}
HEAD = "| Module | Items | Bytes | Before | Instructions | Floor | Times the floor | Memory, MB | Bytes of it for each byte | Floor's memory, MB |"


class Module:
    """A module that programs get: its shape, its count, its file, and the exports that are wanted, or None if it is renamed."""

    def __init__(self, shape, count, path, wanted=None):
        self.shape, self.count, self.path, self.wanted = shape, count, path, wanted
        self.size = path.stat().st_size

    def words(self, program, source, target):
        """The command of a program that writes what becomes of a file."""
        command = ["dedupe"] if self.wanted is None else ["trim"]
        return [str(program), *command, str(source), str(target), *(self.wanted or [])]


def written(path, content):
    """Writes a file, unless it has this content already."""
    if not path.exists() or path.read_bytes() != content:
        path.write_bytes(content)
    return path


def made(shape, count):
    """The module of a shape."""
    path = FOLDER / ("%s-%d.wasm" % (shape, count))
    if shape in RENAMED:
        return Module(shape, count, written(path, RENAMED[shape][0](count)))
    content, wanted = SHAPES[shape][0](count)
    return Module(shape, count, written(path, content), wanted)


def run(words):
    """How long a run takes, its status, and what it printed."""
    begin = time.perf_counter()
    ran = subprocess.run(words, stdin=subprocess.DEVNULL, stdout=subprocess.PIPE, stderr=subprocess.STDOUT, check=False)
    return time.perf_counter() - begin, ran.returncode, ran.stdout.decode(errors="replace").strip()


def megabytes(words):
    """The most memory of a run. GNU's time starts it: for a child of this process the system counts this one's too."""
    if not os.path.exists(TIME):
        return None
    path = FOLDER / "memory"
    run([TIME, "-f", "%M", "-o", str(path), *words])
    return int(path.read_text().split()[-1]) * 1024 / 1e6


def millions(words):
    """How many millions of instructions a run has, by callgrind; None where that is not installed."""
    if not shutil.which("valgrind"):
        return None
    printed = run(["valgrind", "--tool=callgrind", "--callgrind-out-file=%s" % (FOLDER / "callgrind"), *words])[2]
    return int(re.search(r"Collected\s*:\s*([0-9]+)", printed).group(1)) / 1e6


def is_valid(path):
    """Whether wasm-validate accepts a file; None where it is not installed."""
    if not shutil.which("wasm-validate"):
        return None
    return run(["wasm-validate", "--enable-all", str(path)])[1] == 0


def meta_seconds(module):
    """How long wasm-metadce takes; None where it is not installed, refuses the adapter or has nothing to trim."""
    if module.wanted is None or not shutil.which("wasm-metadce"):
        return None
    graph = [{"name": "root", "root": True, "reaches": ["e-" + text for text in module.wanted]}]
    graph += [{"name": "e-" + text, "export": text} for text in module.wanted]
    path = written(module.path.with_suffix(".json"), json.dumps(graph).encode())
    target = module.path.with_suffix(".metadce")
    words = ["wasm-metadce", str(module.path), "--all-features", "--graph-file=%s" % path, "-o", str(target)]
    seconds, status, _ = run(words)
    return seconds if status == 0 else None


class Figures:
    """What a program takes for a module: the fastest run's seconds, the most memory, the instructions; what it wrote and
    printed. `fault` is what it printed where it failed."""

    def __init__(self, asked, program, module, target):
        words = module.words(program, module.path, target)
        runs = [run(words) for _ in range(asked.rounds)]
        self.fault = "%s: status %d %s" % (program, runs[0][1], runs[0][2]) if runs[0][1] else None
        if self.fault:
            return
        self.seconds, self.printed = min(seconds for seconds, _, _ in runs), runs[0][2]
        self.bytes = target.read_bytes()
        self.megabytes = megabytes(words)
        self.millions = millions(words) if asked.instructions else None

    def of_byte(self, module):
        """The bytes of memory for each byte of the module."""
        return None if self.megabytes is None else self.megabytes * 1e6 / module.size


def column(text, value):
    """A value by this format, or a hyphen in a column as wide."""
    return "-".rjust(len(text % 0)) if value is None else text % value


def show(asked, name, module, figures, first=None):
    """Prints the line of a program; with those of the first program, how many times it takes what this one takes."""
    line = "%-8s %8d %9d %9d %8.4f" % (name, module.count, module.size, len(figures.bytes), figures.seconds)
    line += " %8.1f" % (figures.seconds * 1e9 / module.size) + column(" %8.1f", figures.megabytes)
    line += column(" %7.1f", figures.of_byte(module)) + column(" %9.3f", None if first or asked.write else meta_seconds(module))
    if asked.instructions:
        line += column(" %9.3f", figures.millions)
        line += " %6.2f" % (first.millions / figures.millions) if first and figures.millions else ""
    print(line, flush=True)


def check(program, module, target):
    """What is wrong with an output."""
    again = target.with_suffix(".again")
    if module.wanted is None or START not in dict(sections(target.read_bytes())):
        _, status, printed = run(module.words(program, target, again))
        if status:
            return "the output again: " + printed
        if again.read_bytes() != target.read_bytes() or printed:
            return "of the output it makes other bytes"
    if is_valid(target) is False and is_valid(module.path):
        return "wasm-validate refuses the output"
    return None


def measure(asked, module):
    """Gives a module to each program, and prints a line for each: the figures of the program and of its floor, and the fault."""
    target, other = module.path.with_suffix(".written"), module.path.with_suffix(".other")
    first = Figures(asked, asked.program, module, target)
    if first.fault:
        return first, None, first.fault
    show(asked, module.shape, module, first)
    wrong, floor = check(asked.program, module, target), None
    for name, program in ("beside", asked.beside), ("floor", asked.floor if module.shape in TITLES else None):
        if not program:
            continue
        figures = Figures(asked, program, module, other)
        if figures.fault:
            wrong = wrong or figures.fault
            continue
        show(asked, name, module, figures, first)
        floor = figures if name == "floor" else floor
        if (figures.bytes, figures.printed) != (first.bytes, first.printed):
            wrong = wrong or "%s: other bytes or other lines" % name
    return first, floor, wrong


def modules_of(asked):
    """The modules that are measured."""
    for shape in asked.shapes or [*SHAPES, *RENAMED]:
        if shape.endswith(".wasm"):
            content = pathlib.Path(shape).read_bytes()
            held = exported_names(content)
            path = written(FOLDER / pathlib.Path(shape).name, content)
            for wanted in held, held[:: max(len(held) // 4, 1)][:4]:
                yield Module(path.stem[:8], len(wanted), path, wanted)
            continue
        largest = (SHAPES.get(shape) or RENAMED[shape])[1]
        for count in [min(largest, MOST.get(shape, largest))] if asked.write else (largest // 100, largest // 10, largest):
            if asked.most is None or count <= asked.most:
                yield made(shape, count)


def compiled_floors():
    """The program of floors.c, where there is a compiler."""
    if not shutil.which("cc"):
        return None
    path = FOLDER / "floors"
    _, status, printed = run(["cc", "-O2", "-o", str(path), str(FLOORS)])
    if status:
        sys.exit("%s: %s" % (FLOORS, printed))
    return str(path)


# The table


def stored(module, figures, floor):
    """What is stored of a row."""
    return {"items": module.count, "bytes": module.size, "instructions": round(figures.millions, 2),
            "floor": round(floor.millions, 2), "memory": round(figures.megabytes, 2),
            "floor_memory": round(floor.megabytes, 2)}


def table(figures):
    """The lines on the page: when it was measured, and the table."""
    lines = [stored_figures.heading(figures), "", HEAD, "|---" * (HEAD.count("|") - 1) + "|"]
    for shape, title in TITLES.items():
        row = figures["rows"][shape]
        before = "%.1f" % row["before"] if "before" in row else ""
        cells = [title, "{:,}".format(row["items"]), "{:,}".format(row["bytes"]), before, "%.1f" % row["instructions"],
                 "%.1f" % row["floor"], "%.1f" % (row["instructions"] / row["floor"]), "%.1f" % row["memory"],
                 "%.1f" % (row["memory"] * 1e6 / row["bytes"]), "%.1f" % row["floor_memory"]]
        lines.append("| %s |" % " | ".join(cells))
    return "\n".join(lines)


def arguments():
    parser = argparse.ArgumentParser(description=__doc__, formatter_class=argparse.RawDescriptionHelpFormatter)
    parser.add_argument("--program", default=str(PROGRAM))
    parser.add_argument("--beside")
    parser.add_argument("--floor")
    parser.add_argument("--instructions", action="store_true")
    parser.add_argument("--rounds", type=int, default=5)
    parser.add_argument("--most", type=int)
    parser.add_argument("--write", action="store_true")
    parser.add_argument("--check", action="store_true")
    parser.add_argument("shapes", nargs="*", metavar="SHAPE", help=" ".join([*SHAPES, *RENAMED]))
    asked = parser.parse_args()
    for shape in asked.shapes:
        if shape not in SHAPES and shape not in RENAMED and not shape.endswith(".wasm"):
            parser.error("no shape %s" % shape)
    if asked.write and (asked.shapes or asked.most is not None or not asked.instructions):
        parser.error("--write needs --instructions, and measures all rows")
    return asked


def main():
    asked = arguments()
    if asked.check:
        return stored_figures.check("trimming", table)
    load = os.getloadavg()[0]
    if not os.access(asked.program, os.X_OK):
        sys.exit("%s is missing: build it, or name another" % asked.program)
    FOLDER.mkdir(parents=True, exist_ok=True)
    if asked.instructions and not asked.floor:
        asked.floor = compiled_floors()
    if asked.write and not (asked.floor and shutil.which("valgrind") and os.path.exists(TIME)):
        sys.exit("--write needs cc, valgrind and %s" % TIME)
    titles = ("shape", "items", "bytes", "written", "s", "ns/byte", "MB", "B/byte", "metadce")
    print("%-8s %8s %9s %9s %8s %8s %8s %7s %9s" % titles + ("  millions  times" if asked.instructions else ""), flush=True)
    holds, rows = True, {}
    for module in modules_of(asked):
        figures, floor, wrong = measure(asked, module)
        if wrong:
            print("%s %d: %s" % (module.shape, module.count, wrong))
            holds = False
        elif asked.write:
            rows[module.shape] = stored(module, figures, floor)
    if asked.write and holds:
        stored_figures.write("trimming", rows, load, table)
    return 0 if holds else 1


if __name__ == "__main__":
    sys.exit(main())
