#!/usr/bin/env python3
"""Checks one crate as the gate proves it, and prints what the check spends its time on.

    bench/crate-costs.py [--from CHECKOUT] [--lines N] CRATE [--only FUNCTION]... [FLAG..]

The statements of the crates below are those that `rt ci` left in crates/*/out/rlib, of this checkout or of CHECKOUT, which must
have the same sources of these crates. The check writes each module that it has proved into a folder; the processor time
between two files is the second one's. Printed are the whole processor time, and the time before the first module; the time
by kinds of modules (`Lts` is what a function can do step by step), by drops (`Destruct`), derived impls and other functions;
and the most expensive functions (40, or N) with their kinds.

A module's time has the loading of what it is the first to need. With `--only` some functions are checked alone, with those
that they call. Further flags are rattle's.
"""

import argparse
import bisect
import collections
import os
import re
import subprocess
import sys
import tempfile
import time

sys.path.append(os.path.join(os.path.dirname(os.path.dirname(os.path.abspath(__file__))), "tools"))
from repository import TOP, kit_command, rlib_of

TICK = os.sysconf("SC_CLK_TCK")
# what comes after a type's name in the path of a derived function
DERIVED = re.compile(r"(Clone|Debug|Hash|PartialEq|Eq|Ord|PartialOrd|Default|Display|Error)\.\w+$")


def kind(name):
    if "Destruct" in name:
        return "drops"
    return "derived" if DERIVED.search(name) else "functions"


def spent(pid):
    """The processor seconds of a process and of those that come from it."""
    try:
        with open(f"/proc/{pid}/stat", encoding="utf-8", errors="replace") as file:
            words = file.read().rsplit(")", 1)[1].split()
        with open(f"/proc/{pid}/task/{pid}/children", encoding="utf-8") as file:
            children = file.read().split()
    except (OSError, IndexError):
        return 0.0
    return sum(map(int, words[11:15])) / TICK + sum(map(spent, children))


def run(words, folder):
    """Runs the check; gives its last line, and the processor seconds at moments."""
    moments = []
    with tempfile.TemporaryFile("w+", errors="replace") as said:
        check = subprocess.Popen(words, cwd=folder, stdout=said, stderr=subprocess.STDOUT)
        while check.poll() is None:
            seconds = spent(check.pid)
            moments.append((time.time(), max(seconds, moments[-1][1]) if moments else seconds))
            time.sleep(0.05)
        said.seek(0)
        lines = said.read().rstrip().split("\n")
    for line in lines:
        if re.search(r": error|error\[|: not proved", line):
            print(line, file=sys.stderr)
    return lines[-1], moments


def modules(kept, moments):
    """The processor seconds of each module that was kept, in the order of their times."""
    found = []
    for at, _, names in os.walk(kept):
        found += [(os.stat(f"{at}/{it}").st_mtime, it[:-6]) for it in names if it.endswith(".oantt") and "/records" not in at]
    times, before, first, each = [it for it, _ in moments], None, 0.0, []
    for when, name in sorted(found):
        now = moments[min(bisect.bisect_left(times, when), len(moments) - 1)][1]
        each.append((now - before if before is not None else 0.0, name))
        first = now if before is None else first
        before = now
    return each, first


def part(name, crate):
    """The function or type that a module is of, and the module's kind."""
    name = re.sub(rf"^Rattle-{crate}-(proofs|specs)\.?(contracts\.)?", "", name)
    found = re.search(r"\.(Lts(\.\w+)?|Tie|Proof|Code(\.\w+)?|TheLink|Named|Layout|Kinds|Met|Reads|Statement|Symbol|Key)$", name)
    return (name[: found.start()], found[1].split(".")[0]) if found else (name, "other")


def main():
    parser = argparse.ArgumentParser(usage=__doc__.split("\n\n")[1].strip(), description=__doc__,
                                     formatter_class=argparse.RawDescriptionHelpFormatter)
    parser.add_argument("--from", dest="built", default=TOP)
    parser.add_argument("--lines", type=int, default=40)
    parser.add_argument("crate")
    given, flags = parser.parse_known_args()
    with tempfile.TemporaryDirectory() as kept:
        built = os.path.abspath(given.built)
        words = kit_command("check", given.crate, [*flags, "--incremental", kept], folder_of=lambda it: rlib_of(it, built))
        end, moments = run(words, f"{TOP}/crates/{given.crate}")
        each, first = modules(kept, moments)
    print(f"{given.crate}: {end}")
    clock = moments[-1][0] - moments[0][0]
    print(f"{moments[-1][1]:.0f} s of processor time, {clock:.0f} s by the clock; {first:.0f} s before the first module")
    functions, kinds, groups = {}, collections.Counter(), collections.Counter()
    for seconds, name in each:
        base, of = part(name, given.crate)
        functions.setdefault(base, collections.Counter())[of] += seconds
        kinds[of] += seconds
        groups[kind(base)] += seconds
    print("by kinds: " + ", ".join(f"{of} {seconds:.0f}" for of, seconds in kinds.most_common()))
    print("by groups: " + ", ".join(f"{of} {seconds:.0f}" for of, seconds in groups.most_common()))
    dearest = sorted(functions.items(), key=lambda it: -sum(it[1].values()))
    for base, of in dearest[: given.lines]:
        shown = ", ".join(f"{one} {seconds:.1f}" for one, seconds in of.most_common() if seconds >= 0.1)
        print(f"{sum(of.values()):7.1f} {base}  {shown}")
    return 0 if "not-proved" not in end else 1


if __name__ == "__main__":
    sys.exit(main())
