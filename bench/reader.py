#!/usr/bin/env python3
"""Times read_module, and read_body over every body, of files that are in memory.

    bench/reader.py

A time is the fastest of five runs of many readings, less the fastest of five runs of none, divided by their number. Beside it
are runs of wasm-objdump -h, which skips the contents of sections, and of wasm-validate, which also checks types. The files
are C's and C++'s libraries linked whole, without exports and with all of them, and the 50 MB of generate.py. The program is
that of checks/reader_program.py.
"""
import argparse
import os
import subprocess
import sys
import time

import generate
sys.path += [str(generate.TOP / "tools"), str(generate.TOP / "checks")]
from reader_program import reader_program
from repository import need

DATA = generate.TOP / "bench" / "data"
LIBRARIES = [f"/usr/lib/wasm32-wasi/{it}.a" for it in ("libc", "libc++")]
ROUNDS = 5
MEGABYTE = 1_000_000
# what a measured run takes at least
SECONDS = 1.0


def seconds(*words):
    """How long a run takes, and what it prints."""
    begin = time.perf_counter()
    done = subprocess.run(words, stdin=subprocess.DEVNULL, capture_output=True, text=True, check=False)
    took = time.perf_counter() - begin
    if done.returncode:
        sys.exit(f"{' '.join(map(str, words))}: {done.stderr or done.stdout}")
    return took, done.stdout


def best(*words):
    return min(seconds(*words)[0] for _ in range(ROUNDS))


def each(program, what, file):
    """How long one reading takes: the best run of many readings, less the best run of none."""
    once = max(seconds(program, what, "1", file)[0], 1e-3)
    times = str(max(2, int(SECONDS / once)))
    return (best(program, what, times, file) - best(program, what, "0", file)) / int(times)


def measure(program, file):
    """Prints the lines of a file."""
    source = f"{DATA}/{file}.wasm"
    size = os.path.getsize(source) / MEGABYTE
    words = seconds(program, "bodies", "1", source)[1][len(source) + 1 :].split()
    if words[0] != "ok" or words[4] != "0":
        print(f"{file:<28} {size:6.2f} refused: {' '.join(words)}")
        return
    inside = int(words[2]) / MEGABYTE
    module, bodies = each(program, "modules", source), each(program, "bodies", source)
    dump, valid = best("wasm-objdump", "-h", source), best("wasm-validate", source)
    print(f"{file:<28} {size:6.2f} {module:13.5f} {size / module:7.0f} {inside:10.2f} {bodies:12.5f} {inside / bodies:7.1f} "
          f"{dump:13.4f} {valid:11.4f}")
    print(f"{'':<28} {words[1]} bodies, {words[3]} operators, {bodies / int(words[3]) * 1e9:.1f} ns an operator")


def main():
    argparse.ArgumentParser(description=__doc__, formatter_class=argparse.RawDescriptionHelpFormatter).parse_args()
    need("wasm-ld lld", "wasm-validate wabt", "wasm-objdump wabt", f"{LIBRARIES[0]} wasi-libc", f"{LIBRARIES[1]} libc++-dev-wasm32")
    program = reader_program()
    generate.make(DATA)
    for kind in ("--no-gc-sections", "--export-all"):
        link = ["wasm-ld", "--no-entry", "--allow-undefined", kind, "--whole-archive", *LIBRARIES]
        subprocess.run([*link, "-o", f"{DATA}/libraries{kind}.wasm"], check=True)
    print(f"start of the program alone: {best(program):.4f} s")
    head = "file", "MB", "read_module s", "MB/s", "bodies MB", "read_body s", "MB/s", "objdump -h s", "validate s"
    print("%-28s %6s %13s %7s %10s %12s %7s %13s %11s" % head)
    for file in ("libraries--no-gc-sections", "libraries--export-all", "no-repeats"):
        measure(program, file)


if __name__ == "__main__":
    main()
