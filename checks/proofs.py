#!/usr/bin/env python3
"""Proves all libraries for the merge gate, with as many processes as there is memory for.

    checks/proofs.py             # proves the libraries; `rt ci` after it keeps what was proved
    checks/proofs.py --jobs      # prints how many proofs `rt ci` should have under way, or nothing if it had better decide

This is `rt ci NAME..` of the libraries with a lower estimate of memory. `rt ci` expects 9 to 14 GB for a large crate, and so has
one or two proofs under way in 24 GB; but with one process `wc_validate` took 5.7 GB, `wc_gc` 4.7, and four of the largest
together 15.3. With the lower estimate the longest chain of crates takes two thirds of its minutes. The gate is the `rt ci` after
it, which proves what this did not. With RT_JOBS, which --jobs prints, `rt ci` gives each proof one process, and expects no memory.
"""
import argparse
import importlib.machinery
import importlib.util
import os
import pathlib
import shutil
import sys

sys.path.append(str(pathlib.Path(__file__).resolve().parent.parent / "tools"))
from repository import TOP, is_program, used_by_crates

# what a proof with one process takes, with a quarter more; and the memory from which on `rt ci` had best decide itself
PROOF, AMPLE = 4.8e9, 28e9
# a proof's memory: a share of what `rt ci` expects, and what each takes
SHARE, EACH = 0.33, 1.5e9


def rt():
    """`rt` as a module: it knows the processors and the memory that this process may use, under quotas too."""
    loader = importlib.machinery.SourceFileLoader("rt", shutil.which("rt"))
    module = importlib.util.module_from_spec(importlib.util.spec_from_loader("rt", loader))
    sys.modules["rt"] = module
    loader.exec_module(module)
    return module


def jobs(processors, free):
    """How many proofs fit, or None where `rt ci` had best decide itself."""
    found = min(processors, int(free / PROOF))
    return found if found > 1 and free < AMPLE else None


def prove(kit):
    """Proves the libraries by `rt ci`, and returns its status."""
    reckoned = kit.need
    kit.need = lambda crate: EACH + SHARE * reckoned(crate)
    os.chdir(TOP)
    for name in ("RT_JOBS", "CI"):
        os.environ.pop(name, None)
    return kit.main(["ci", *(crate for crate in used_by_crates() if not is_program(crate))])


def main():
    parser = argparse.ArgumentParser(description=__doc__, formatter_class=argparse.RawDescriptionHelpFormatter)
    parser.add_argument("--jobs", action="store_true")
    given = parser.parse_args()
    sys.dont_write_bytecode = True
    kit = rt()
    if not given.jobs:
        return prove(kit)
    found = jobs(kit.processors(), kit.free())
    if found:
        print(found)
    return 0


if __name__ == "__main__":
    sys.exit(main())
