#!/usr/bin/env python3
"""Runs `wcplan` on a real program, and compares what it prints and writes with what is known of its component.

    wcplan-real.py [--program PROGRAM] [--rounds N] FOLDER

PROGRAM is crates/wcplan/out/wcplan by default. FOLDER has wasi-command.json, the world `wasi:cli/command`; wasi-hello.wasm, a C
program linked with wasi-libc; wasi-command-adapter.wasm, the adapter `wasi_snapshot_preview1`; and wasi-hello.expected: the
imports and exports of both modules, how each function of their component is lowered and by which options, and the size and
SHA-256 of the trimmed adapter.

The lines of the plan follow from the last file: a line for each imported function, main module first, with a slot if it is
lowered indirectly, and the module's realloc if its options have one. The trimmed adapter has that size and sum, and the main
module, whose imports don't repeat, its own bytes. The last line has the fastest of N runs (20). The status is 1 if something
differs.
"""
import argparse
import hashlib
import pathlib
import re
import subprocess
import sys
import tempfile
import time

TOP = pathlib.Path(__file__).resolve().parent.parent
PROGRAM = TOP / "crates" / "wcplan" / "out" / "wcplan"
ADAPTER = "wasi_snapshot_preview1"
TRIMMED = re.compile(r"# The trimmed adapter: (\d+) bytes of \d+, sha256 (\w+)")
IMPORTED = re.compile(r'(\S+) \S+: (?:Interface|World)Func\(.*"(.+)", GuestImport(Async)?\)')
REALLOC = re.compile(r"(\S+): GeneralPurposeImportRealloc")
INTERFACE = re.compile(r"(\S+): interface ")
LOWERING = re.compile(r"  (\S+) GuestImport(Async)?: (Direct|Indirect) .*RequiredOptions\((\d+)\) }")


def modules_of(lines):
    """For each module its owner, the functions that it imports, and its realloc for the results of imports."""
    modules = [("main", [], ["-"])]
    for line in lines:
        if line.startswith("adapter "):
            modules.append((line, [], ["-"]))
        imported, realloc = IMPORTED.fullmatch(line), REALLOC.fullmatch(line)
        if imported:
            modules[-1][1].append((imported[1], imported[2], "async" if imported[3] else "sync"))
        if realloc:
            modules[-1][2][0] = realloc[1]
    return modules


def lowerings_of(lines):
    """For each lowered function whether it is lowered indirectly, and its options."""
    lowerings, interface = {}, None
    for line in lines:
        found, lowering = INTERFACE.match(line), LOWERING.fullmatch(line)
        interface = found[1] if found else interface
        if lowering:
            key = interface, lowering[1], "async" if lowering[2] else "sync"
            lowerings[key] = lowering[3] == "Indirect", int(lowering[4])
    return lowerings


def plan_of(lines):
    """The lines of the plan."""
    lowerings, slots, printed = lowerings_of(lines), 0, []
    for owner, imported, realloc in modules_of(lines):
        for function in dict.fromkeys(imported):
            is_indirect, options = lowerings[function]
            slot = str(slots) if is_indirect else "-"
            slots += is_indirect
            printed.append("%s %s slot %s realloc %s" % (owner, " ".join(function), slot, realloc[0] if options & 2 else "-"))
    return printed


def fastest(words, rounds):
    """The fastest of so many runs, in milliseconds."""
    times = []
    for _ in range(rounds):
        begin = time.perf_counter()
        subprocess.run(words, stdout=subprocess.DEVNULL, check=True)
        times.append(time.perf_counter() - begin)
    return 1000 * min(times)


def main():
    parser = argparse.ArgumentParser(description=__doc__, formatter_class=argparse.RawDescriptionHelpFormatter)
    parser.add_argument("--program", type=pathlib.Path, default=PROGRAM)
    parser.add_argument("--rounds", type=int, default=20)
    parser.add_argument("folder", type=pathlib.Path)
    words = parser.parse_args()
    folder = words.folder
    expected = (folder / "wasi-hello.expected").read_text()
    size, digest = TRIMMED.search(expected).groups()
    lines = [it for it in expected.split("\n") if not it.startswith("#")]
    differences = []
    with tempfile.TemporaryDirectory() as out:
        command = [words.program, folder / "wasi-command.json", "wasi:cli/command", folder / "wasi-hello.wasm"]
        command += ["--adapt", "%s=%s" % (ADAPTER, folder / "wasi-command-adapter.wasm")]
        command += ["--adapter-export", ADAPTER + "=wasi:cli/run@0.2.6", "--out", out]
        ran = subprocess.run(command, stdin=subprocess.DEVNULL, stdout=subprocess.PIPE, text=True)
        if ran.returncode != 0:
            differences.append("status %d" % ran.returncode)
        if ran.stdout.split("\n") != plan_of(lines) + [""]:
            differences.append("printed:\n%sexpected:\n%s" % (ran.stdout, "\n".join(plan_of(lines))))
        files = {it.name: it.read_bytes() for it in pathlib.Path(out).iterdir()}
        if sorted(files) != ["main.wasm", ADAPTER + ".wasm"]:
            differences.append("files: %s" % sorted(files))
        trimmed = files.get(ADAPTER + ".wasm", b"")
        if (str(len(trimmed)), hashlib.sha256(trimmed).hexdigest()) != (size, digest):
            differences.append("trimmed adapter: %d bytes, expected %s, or others" % (len(trimmed), size))
        if files.get("main.wasm") != (folder / "wasi-hello.wasm").read_bytes():
            differences.append("main module: other bytes")
        for it in differences:
            print(it)
        if not differences:
            figures = len(plan_of(lines)), len(trimmed), fastest(command, words.rounds)
            print("as expected: %d lines; adapter of %d bytes; fastest run %.1f ms" % figures)
    return 1 if differences else 0


if __name__ == "__main__":
    sys.exit(main())
