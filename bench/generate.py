#!/usr/bin/env python3
"""Writes large modules into a folder (default: bench/data), unless they are there.

    bench/generate.py [FOLDER]

    no-repeats.wasm         a valid module of 50 MB: 5,000 imports of distinct names, 40,000 functions, a data section of 18 MB,
                            and 200 custom sections of 14 MB together
    one-repeat.wasm         the same, and one import more, of the first name
    repeats-100000.wasm     100,000 function imports of one name, and nothing else
"""

import argparse
import pathlib
import random
import sys

TOP = pathlib.Path(__file__).resolve().parent.parent
sys.path.append(str(TOP / "checks"))
from module_bytes import HEADER, function_import, name, number, section, types, vector

MEGABYTE = 1_000_000


def large(repeats):
    """A valid module of about 50 MB: 5,000 imports of distinct names in 50 modules, then as many of the
    first name as `repeats` says, 40,000 functions, a data section, and custom sections between them."""
    chance = random.Random(1)
    imports = [function_import(f"host:module-{i % 50}/interface", f"function-{i}") for i in range(5000)]
    imports += [imports[0]] * repeats
    bodies = []
    for _ in range(40000):
        code = b"\0" + b"".join(bytes([0x41, n, 0x1A]) for n in chance.choices(range(64), k=150)) + b"\x0b"
        bodies.append(number(len(code)) + code)
    segments = [b"\0\x41\0\x0b" + number(60000) + chance.randbytes(60000) for _ in range(300)]
    custom = [section(0, name(f"payload-{i}") + chance.randbytes(70000)) for i in range(200)]
    parts = [
        types(),
        section(2, vector(imports)),
        section(3, vector([b"\0"] * len(bodies))),
        section(5, bytes.fromhex("010001")),
        section(7, vector([name("run") + b"\0" + number(len(imports))])),
        section(10, vector(bodies)),
        section(11, vector(segments)),
    ]
    made = [HEADER]
    for at, part in enumerate(parts):
        made += custom[at::8]
        made.append(part)
    return b"".join(made + custom[7::8])


def repeated(count):
    """A module that imports one function `count` times under one name, and holds nothing else."""
    return HEADER + types() + section(2, vector([function_import("a", "f")] * count))


def mixed(count):
    """A module that imports `count` functions, in random order, of 100 names in each of 50 modules with alike names."""
    chance = random.Random(1)
    names = [function_import(f"wasi:io/streams@0.2.{module}", f"[method]output-stream.blocking-write-{at}")
             for module in range(50) for at in range(100)]
    return HEADER + types() + section(2, vector([chance.choice(names) for _ in range(count)]))


# Modules that are renamed, beside the shapes of adapters that are trimmed, with their largest count.
RENAMED = {"repeats": (repeated, 100_000), "mixed": (mixed, 100_000)}

FILES = {
    "no-repeats.wasm": lambda: large(0),
    "one-repeat.wasm": lambda: large(1),
    "repeats-100000.wasm": lambda: repeated(100_000),
}


def make(folder):
    """Writes those that are not there."""
    folder.mkdir(parents=True, exist_ok=True)
    for file, module in FILES.items():
        if not (folder / file).exists():
            part = folder / (file + ".part")
            print(f"{file}: {part.write_bytes(module()) / MEGABYTE:.2f} MB")
            part.rename(folder / file)


def main():
    parser = argparse.ArgumentParser(description=__doc__, formatter_class=argparse.RawDescriptionHelpFormatter)
    parser.add_argument("folder", nargs="?", type=pathlib.Path, default=TOP / "bench" / "data")
    make(parser.parse_args().folder)


if __name__ == "__main__":
    main()
