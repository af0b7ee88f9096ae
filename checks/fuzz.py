#!/usr/bin/env python3
"""Runs `wctrim` on random bytes and on damaged modules, and looks for runs that end by a signal or not at all.

    fuzz.py [--program PROGRAM] [--cases N] [--first N] [--seed SEED] [--workers N] [--memory MB] [MODULE ..]

PROGRAM is by default crates/wctrim/out/wctrim, or what the variable WCTRIM names. A case is a file that goes through `scan`,
`dedupe` and `trim` to some of its exports, with 10 seconds and 1 GB of memory, or MB (0: no bound, for a sanitizer). The status
has to be 0 or 1. A trimmed file, trimmed again, has to stay the same, unless it had the name `__stack_pointer`. The same seed
makes the same cases, 200,000 of them, or N from number N on.

MODULE is a file, or a folder with files that end in .wasm or .o; the default is examples/, what other scripts made, and small
adapters of adapter_shapes.py. Every tenth case is random bytes, and one in twenty a module as it is. In all others a module is
damaged in one to three ways: bytes are changed, taken out, put in or repeated, the rest is cut, or a size or count is another.

First, sections that count 2^32 - 1 items and have none are read with no more memory than an empty module needs. Runs that go
wrong are printed and kept in checks/data/fuzz; the status is then 1.
"""
import argparse
import collections
import concurrent.futures
import os
import pathlib
import random
import resource
import subprocess
import sys
import tempfile
import time

from adapter_shapes import SHAPES
from module_bytes import HEADER, exported_names, number_at, spans

TOP = pathlib.Path(__file__).resolve().parent.parent
PROGRAM = TOP / "crates" / "wctrim" / "out" / "wctrim"
KEPT = TOP / "checks" / "data" / "fuzz"
MOST = 1 << 30
SECONDS = 10
LARGEST = bytes.fromhex("ffffffff0f")
# the sections that begin with a count
COUNTED = 1, 2, 3, 4, 5, 6, 7, 9, 10, 11
# those of elements and data, whose contents are not read
UNREAD = 9, 11
PART = b"__stack_pointer"
# what a worker has: the program, the modules, the seed and its folder
given = None


def names_of(content):
    """The names of up to a thousand exports that can be arguments."""
    return [it for it in exported_names(content)[:1000] if it and not it.startswith("--") and "\0" not in it]


def five_bytes(value):
    """A number of 32 bits in five bytes."""
    return bytes([value >> 7 * position & 0x7F | 0x80 for position in range(4)] + [value >> 28 & 0xF])


def with_another_number(dice, content):
    """A size or a count becomes another number."""
    found = list(spans(content))
    if not found:
        return content
    kind, start, begin, _ = dice.choice(found)
    at = begin if kind in COUNTED and dice.random() < 0.6 else start + 1
    try:
        value, after = number_at(content, at)
    except ValueError:
        return content
    value = dice.choice([value + 1, value * 2, dice.getrandbits(32), max(value, 1) - 1])
    return content[:at] + dice.choice([LARGEST, five_bytes(value)]) + content[after:]


def with_other_code(dice, content):
    """Bytes of bodies are changed, and all sizes stay."""
    code = [(begin, end) for kind, _, begin, end in spans(content) if kind == 10 and end - begin > 8]
    if not code:
        return content
    begin, end = code[0]
    changed = bytearray(content)
    for _ in range(1 << dice.randrange(4)):
        changed[dice.randrange(begin + 4, end)] = dice.randrange(256)
    return bytes(changed)


def damaged(dice, content):
    """A module with one thing changed."""
    at = dice.randrange(len(content) + 1)
    if dice.random() < 0.7:
        # after the header, and not in the middle of a long section of data
        at = min(len(content), len(HEADER) + int(dice.random() ** 2 * len(content)))
    size = min(1 << dice.randrange(8), len(content) - at)
    way = dice.randrange(10)
    if way == 0:
        return content[:at]
    if way == 1:
        return content[:at] + content[at + size :]
    if way == 2:
        return content[:at] + dice.randbytes(size) + content[at:]
    if way == 3:
        return content[: at + size] + content[at:]
    if way in (4, 5):
        return with_another_number(dice, content)
    if way in (6, 7):
        return with_other_code(dice, content)
    changed = bytearray(content)
    for _ in range(1 << dice.randrange(4)):
        if changed:
            position = min(at + dice.randrange(64), len(changed) - 1)
            changed[position] = dice.choice([dice.randrange(256), changed[position] ^ 1 << dice.randrange(8), 0, 0xFF, 0x0B])
    return bytes(changed)


def random_bytes(dice):
    """Random bytes, mostly after a header, and often as sections that can be framed."""
    if dice.random() < 0.2:
        return dice.randbytes(dice.randrange(200))
    content = HEADER
    for _ in range(dice.randrange(6)):
        inside = dice.randbytes(dice.randrange(40))
        content += bytes([dice.randrange(13), len(inside)]) + inside
    return content + dice.randbytes(dice.randrange(10))


def case(number):
    """The bytes of a case, the names to trim to, and options."""
    dice = random.Random("%s %d" % (given.seed, number))
    if number % 10 == 0:
        content, names = random_bytes(dice), ["a"]
    else:
        content, names = dice.choice(given.modules)
        if number % 20 != 1:
            for _ in range(dice.randrange(3) + 1):
                content = damaged(dice, content)
    wanted = dice.sample(names, min(len(names), dice.choice([1, 1, 2, 3, 10]))) or ["a"]
    options = dice.choice([[], [], ["--realloc", "cabi_realloc"], ["--page", "0"]])
    return content, options + wanted


def run(words, memory=None):
    """The status of a run, None where it took too long; what it printed; and its time."""
    begin = time.perf_counter()
    limit = None if memory is None else lambda: resource.setrlimit(resource.RLIMIT_AS, (memory, memory))
    try:
        pipes = {"stdin": subprocess.DEVNULL, "stdout": subprocess.PIPE, "stderr": subprocess.STDOUT}
        ran = subprocess.run(words, timeout=SECONDS, preexec_fn=limit, **pipes)
    except subprocess.TimeoutExpired:
        return None, b"", time.perf_counter() - begin
    return ran.returncode, ran.stdout, time.perf_counter() - begin


def try_case(number, source, target, again, counts):
    """Runs all on one case; what went wrong."""
    content, words = case(number)
    source.write_bytes(content)
    target.unlink(missing_ok=True)
    trim = [given.program, "trim", source, target] + words
    for command in ([given.program, "scan", source], [given.program, "dedupe", source, again], trim):
        status, printed, seconds = run(command)
        counts["%s with status %s" % (command[1], status)] += 1
        counts["slowest"] = max(counts["slowest"], seconds)
        if status not in (0, 1):
            return "%s: status %s: %s" % (command[1], status, printed[:200])
    if status == 1:
        if b"out of memory" in printed:
            counts["trim without memory"] += 1
        return None
    status, printed, _ = run([given.program, "trim", target, again] + words)
    same = status == 0 and target.read_bytes() == again.read_bytes()
    if PART in content:
        counts["trimmed again with a stack pointer, %s" % ("the same" if same else "another text or a fault")] += 1
        return None
    counts["trimmed again, %s" % ("the same" if same else "not the same")] += 1
    return None if same else "trimmed again: status %s: %s" % (status, printed[:200])


def try_cases(numbers):
    """Runs all on these cases; the counts, and what went wrong in which case."""
    counts, wrong = collections.Counter(slowest=0), []
    with tempfile.TemporaryDirectory(dir=given.folder) as folder:
        paths = [pathlib.Path(folder) / name for name in ("in", "out", "again")]
        for number in numbers:
            text = try_case(number, *paths, counts)
            if text:
                wrong.append((number, text))
    return counts, wrong


def begin(words):
    """A worker begins. Its processes have no more memory than this."""
    global given
    given = words
    if words.memory:
        resource.setrlimit(resource.RLIMIT_AS, (words.memory << 20, words.memory << 20))


def least_memory(program, path, wanted):
    """The least memory, in steps of 64 KB, with which scanning a file prints this."""
    low, high = 0, MOST >> 16
    while high - low > 1:
        middle = (low + high) // 2
        printed = run([program, "scan", path], middle << 16)[1]
        low, high = (low, middle) if printed == wanted else (middle, high)
    return high << 16


def check_counts(program, folder):
    """Sections with a count that is not met need no more memory than an empty module does; whether that holds."""
    path = pathlib.Path(folder) / "counted"
    path.write_bytes(HEADER)
    empty = least_memory(program, path, b"")
    holds = True
    for kind in (it for it in COUNTED if it not in UNREAD):
        path.write_bytes(HEADER + bytes([kind, 5]) + LARGEST)
        status, printed, _ = run([program, "scan", path], empty + (1 << 16))
        if status != 1 or b"out of memory" in printed or not printed:
            print("section %d with a count that is not met: status %s: %s" % (kind, status, printed))
            holds = False
    text = b"wctrim: Read: Truncated\n"
    path.write_bytes(HEADER + bytes([1, 5]) + LARGEST)
    counted = least_memory(program, path, text)
    print("empty module: %d KB of memory; types that are counted and not there: %d KB" % (empty >> 10, counted >> 10))
    return holds


def modules_of(paths):
    """Modules, each with the names of its exports; none of more than 256 KB."""
    files = []
    for path in paths:
        files += sorted(it for it in path.rglob("*") if it.suffix in (".wasm", ".o")) if path.is_dir() else [path]
    contents = [it.read_bytes() for it in files if 0 < it.stat().st_size <= 1 << 18]
    contents += [make(count)[0] for make, _ in SHAPES.values() for count in (1, 3, 10)]
    return [(content, names_of(content)) for content in contents]


def main():
    parser = argparse.ArgumentParser(description=__doc__, formatter_class=argparse.RawDescriptionHelpFormatter)
    parser.add_argument("--program", default=os.environ.get("WCTRIM", str(PROGRAM)))
    parser.add_argument("--cases", type=int, default=200_000)
    parser.add_argument("--first", type=int, default=0)
    parser.add_argument("--seed", default="1")
    parser.add_argument("--workers", type=int, default=2)
    parser.add_argument("--memory", type=int, default=1024)
    parser.add_argument("modules", nargs="*", metavar="MODULE", type=pathlib.Path)
    words = parser.parse_args()
    found = [it for it in (TOP / "examples", TOP / "checks" / "data", TOP / "bench" / "data") if it.exists()]
    words.modules = modules_of(words.modules or found)
    counts, wrong, began = collections.Counter(slowest=0), [], time.monotonic()
    with tempfile.TemporaryDirectory() as words.folder:
        holds = not words.memory or check_counts(words.program, words.folder)
        last = words.first + words.cases
        chunks = [range(at, min(at + 250, last)) for at in range(words.first, last, 250)]
        with concurrent.futures.ProcessPoolExecutor(words.workers, initializer=begin, initargs=(words,)) as workers:
            for more, bad in workers.map(try_cases, chunks):
                slowest = max(counts["slowest"], more["slowest"])
                counts.update(more)
                counts["slowest"] = slowest
                wrong += bad
    begin(words)
    for number, text in wrong:
        KEPT.mkdir(parents=True, exist_ok=True)
        (KEPT / ("%s-%d.wasm" % (words.seed, number))).write_bytes(case(number)[0])
        print("case %d, arguments %s: %s" % (number, " ".join(case(number)[1]), text))
    slowest = counts.pop("slowest")
    for text in sorted(counts):
        print("%8d %s" % (counts[text], text))
    line = "%d cases of %d modules in %d s, slowest run %.2f s, %d went wrong"
    print(line % (words.cases, len(words.modules), time.monotonic() - began, slowest, len(wrong)))
    return 0 if holds and not wrong else 1


if __name__ == "__main__":
    sys.exit(main())
