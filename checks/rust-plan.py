#!/usr/bin/env python3
"""Compares the functions that the Rust crate's example `encoder` prints with the lines of `wcplan`, and runs what it writes in node.

    checks/rust-plan.py [PROGRAM]

Both plan the components of examples/wcplan and of examples/wasi, if examples/wasi/make.sh has made its modules. PROGRAM is the
script `wcplan` by default. If node is installed, rust/nuigatre/examples/run.mjs instantiates the modules of each, and calls an
export. Differences are printed; the status is 1 if there is one, or nothing to compare. It needs cargo and the static library;
rust/check runs it.
"""
import argparse
import difflib
import os
import shutil
import subprocess
import sys
import tempfile

from rust_examples import CRATE, PLANS, TOP, built_example, lines_of

RUN = os.path.join(CRATE, "examples", "run.mjs")


def ran_in_node(folder, lines, export, wanted):
    """What an export of these modules prints in node, against what is wanted."""
    command = ["node", RUN, folder, export]
    ran = subprocess.run(command, input="\n".join(lines), capture_output=True, text=True, check=False)
    return difflib.unified_diff(wanted, (ran.stdout + ran.stderr).splitlines(), "wanted of " + export, "node", lineterm="")


def main():
    parser = argparse.ArgumentParser(description=__doc__, formatter_class=argparse.RawDescriptionHelpFormatter)
    parser.add_argument("program", nargs="?", type=os.path.abspath, default=os.path.join(TOP, "wcplan"))
    program, example = parser.parse_args().program, built_example("encoder")
    compared, ran, different = 0, 0, []
    for plan in PLANS:
        wanted = plan.lines_of(program)
        if wanted is None:
            continue
        with tempfile.TemporaryDirectory() as made:
            lines = lines_of([example, made, *plan.arguments], plan.folder)
            printed = [line.partition("\t")[2] for line in lines if line.startswith("use\t")]
            different += difflib.unified_diff(wanted, printed, "wcplan of " + plan.folder, "encoder", lineterm="")
            compared += len(wanted)
            if shutil.which("node"):
                different += ran_in_node(made, lines, plan.export, plan.printed)
                ran += 1
    print("\n".join(different) if different else "%d lines of plans agree, %d components ran in node" % (compared, ran))
    return 1 if different or not compared else 0


if __name__ == "__main__":
    sys.exit(main())
