#!/usr/bin/env python3
"""Builds the program that reads modules for other scripts and writes them again, if it is missing or out of date; prints its path.

    checks/reader_program.py [--unproved]

Its source is in checks/reader, so that the merge gate doesn't prove it. It is built in a repository of its own,
checks/data/reader, with copies of the crates that it uses and of what is proved of them. With --unproved, or if READER is
`unproved`, it is compiled without proof, in a minute.
"""
import argparse
import os
import pathlib
import shutil
import subprocess
import sys

sys.path.append(str(pathlib.Path(__file__).resolve().parent.parent / "tools"))
from repository import TOP, crates_below, used_by_crates

SOURCES = TOP / "checks" / "reader"
HOME = TOP / "checks" / "data" / "reader"
PARTS = "src", "specs", "proofs"


def is_fresh(program, crates):
    """Whether the program is there, and no source is newer."""
    folders = [TOP / "crates" / crate / part for crate in crates for part in PARTS]
    paths = [pathlib.Path(__file__), TOP / "crates.txt", *(it for folder in [SOURCES, *folders] for it in [folder, *folder.rglob("*")])]
    return program.is_file() and all(it.stat().st_mtime <= program.stat().st_mtime for it in paths if it.exists())


def make_repository(crates):
    used = used_by_crates()
    (HOME / "crates" / "reader").mkdir(parents=True, exist_ok=True)
    if not (HOME / ".git").is_dir():
        subprocess.run(["git", "init", "-q", HOME], check=True)
    shutil.copy(TOP / "HANDLES", HOME)
    lines = ["%s: %s" % (crate, " ".join(used[crate])) for crate in crates] + ["reader: " + " ".join(crates)]
    (HOME / "crates.txt").write_text("\n".join(lines) + "\n")
    for crate in crates:
        for part in (*PARTS, "out"):
            shutil.rmtree(HOME / "crates" / crate / part, ignore_errors=True)
            if (TOP / "crates" / crate / part).is_dir():
                shutil.copytree(TOP / "crates" / crate / part, HOME / "crates" / crate / part)
    # Their names end in .txt here, since `rt ci` takes each .rt file for a part of a crate that it proves.
    (HOME / "crates" / "reader" / "src").mkdir(exist_ok=True)
    for source in SOURCES.iterdir():
        shutil.copy(source, HOME / "crates" / "reader" / "src" / source.stem)


def reader_program(is_unproved=None):
    """The path of the program, which is built where it has to be."""
    is_unproved = os.environ.get("READER") == "unproved" if is_unproved is None else is_unproved
    program, crates = HOME / "crates" / "reader" / "out" / "reader", crates_below("wc_write")
    program = program.with_suffix(".optimised") if is_unproved else program
    if is_fresh(program, crates):
        return program
    if not shutil.which("rt"):
        sys.exit(f"{sys.argv[0]}: rt, which builds the program, is not on PATH: see README.md, \"Try it\"")
    make_repository(crates)
    if is_unproved:
        words = ["--top", HOME, "--head", f"{sys.argv[0]}: compiling the reader without its proof"]
        subprocess.run([TOP / "tools" / "unproved.py", *words, "reader", program], stdout=sys.stderr, check=True)
        return program
    print(f"{sys.argv[0]}: building the proved reader: minutes where the crates are proved, else an hour", file=sys.stderr)
    how = {"stdin": subprocess.DEVNULL, "stdout": subprocess.PIPE, "stderr": subprocess.STDOUT, "text": True}
    ran = subprocess.run(["rt", "run"], cwd=HOME / "crates" / "reader", check=False, **how)
    if ran.returncode or not program.is_file():
        said = [it for it in ran.stdout.splitlines() if not it.endswith(": proved")]
        sys.exit("\n".join([*said[-20:], f"{sys.argv[0]}: the reader was not built"]))
    program.touch()
    return program


def main():
    parser = argparse.ArgumentParser(description=__doc__, formatter_class=argparse.RawDescriptionHelpFormatter)
    parser.add_argument("--unproved", action="store_true", default=None)
    print(reader_program(parser.parse_args().unproved))


if __name__ == "__main__":
    main()
