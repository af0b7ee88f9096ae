#!/usr/bin/env python3
"""Checks that the proofs of all crates are expected to stay within a budget of processor minutes, before one is begun.

    checks/budget.py [--crates]

Three numbers decide what a proof takes: the crates, the functions of each, and the functions in the crates below it, which
each of its functions loads. Lines of proof add nothing that can be seen. `CRATE`, `FUNCTION` and `BELOW` are in the minutes
of the table of costs in docs/MAP.md, and `bench/gate-costs.py --fit` fits them to it.

Printed are the expected minutes of all crates, and of the longest chain of crates that wait for each other; with --crates
those of each crate too. The status is 1 where either is over its budget. Then remove functions, move them to a lower crate
or off the chain, or join two crates.
"""
import argparse
import pathlib
import re
import sys

sys.path.append(str(pathlib.Path(__file__).resolve().parent.parent / "tools"))
from repository import code_of, crates_below, files_of, used_by_crates

# expected processor minutes: of a crate, of a function, and of a function for each 1,000 functions in the crates below
CRATE, FUNCTION, BELOW = 0.46, 0.0289, 0.0097
# the most minutes of all crates, and of the longest chain
WHOLE, CHAIN = 215, 72
HEAD = re.compile(r'^\s*(?:pub(?:\([a-z]+\))? )?(?:const )?(?:unsafe )?(?:extern "C" )?fn \w', re.M)


def function_counts():
    """How many functions each crate has, with the methods of its traits and impls."""
    return {crate: sum(len(HEAD.findall(code_of(path))) for path in files_of(crate, "src", ".rt")) for crate in used_by_crates()}


def expected_minutes(counts, used):
    """The minutes that the proof of each crate is expected to take."""
    minutes = {}
    for crate, count in counts.items():
        below = sum(counts[name] for name in crates_below(crate, used)[:-1])
        minutes[crate] = CRATE + count * (FUNCTION + BELOW * below / 1000)
    return minutes


def longest_chain(minutes, used):
    """The crates of the longest chain of proofs that wait for each other, the lowest first."""
    chains = {}

    def chain(crate):
        if crate not in chains:
            waits = [chain(name) for name in used[crate] if name in used]
            chains[crate] = max(waits, key=lambda it: sum(minutes[name] for name in it), default=[]) + [crate]
        return chains[crate]

    return max((chain(crate) for crate in used), key=lambda it: sum(minutes[name] for name in it))


def main():
    parser = argparse.ArgumentParser(description=__doc__, formatter_class=argparse.RawDescriptionHelpFormatter)
    parser.add_argument("--crates", action="store_true")
    given = parser.parse_args()
    used, counts = used_by_crates(), function_counts()
    minutes = expected_minutes(counts, used)
    chain = longest_chain(minutes, used)
    whole, longest = sum(minutes.values()), sum(minutes[name] for name in chain)
    if given.crates:
        for crate, cost in sorted(minutes.items(), key=lambda it: -it[1]):
            print("%-20s %4d functions, %4.1f minutes" % (crate, counts[crate], cost))
    print("%d functions in %d crates: %.0f minutes of %d, chain %.0f of %d: %s" %
          (sum(counts.values()), len(counts), whole, WHOLE, longest, CHAIN, ", ".join(chain)))
    over = ["%s: %.1f minutes are expected, and %d is the budget: %s" % (what, cost, most, hint)
            for what, cost, most, hint in (("all crates", whole, WHOLE, "remove functions, or join crates"),
                                           ("the longest chain", longest, CHAIN, "move functions lower or off the chain")) if cost > most]
    for line in over:
        print(line)
    return 1 if over else 0


if __name__ == "__main__":
    sys.exit(main())
