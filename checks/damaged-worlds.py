#!/usr/bin/env python3
"""Runs `wcplan` on damaged texts of worlds, and looks for runs that end by a signal, not at all, or with a wrong line.

    damaged-worlds.py [--program PROGRAM] [--cases N] [--first N] [--seed SEED] [--folder FOLDER]

PROGRAM is crates/wcplan/out/wcplan by default. A case is examples/wcplan/notes.json, damaged in one to three ways, with the modules
beside it; with a FOLDER, as of wcplan-real.py, every tenth case is its text. The same seed makes the same cases, 200,000 of
them, or N from number N on. The text is cut, or its bytes are changed; or in its tree a member or an item is removed, doubled,
renamed or moved, a number, text or value is another one, or arrays and objects are nested up to 100,000 times.

A run has 10 seconds and 1 GB of memory. With status 0 it prints lines of a plan alone, and writes all files. With status 1 it
prints a line to standard error that begins with `wcplan: `, under it lines that begin with two blanks, and writes no file. No
line has a control character. Runs that go wrong are printed, and kept in checks/data/damaged-worlds; the status is then 1.
"""
import argparse
import collections
import json
import pathlib
import random
import re
import resource
import subprocess
import sys
import tempfile
import time

TOP = pathlib.Path(__file__).resolve().parent.parent
PROGRAM = TOP / "crates" / "wcplan" / "out" / "wcplan"
EXAMPLE = TOP / "examples" / "wcplan"
KEPT = TOP / "checks" / "data" / "damaged-worlds"
MEMORY = 1 << 30
SECONDS = 10
LINE = re.compile(rb"(main|adapter .+) .+ .* (sync|async) slot (\d+|-) realloc .+")
CONTROL = re.compile(rb"[\x00-\x1f\x7f]")
NUMBERS = ["-1", "-0", "1.5", "1e3", "007", "0.0", "4294967295", "4294967296", "18446744073709551616", "9" * 400, "null", "true"]
KEYS = ["interface-0", "interface-1", "interface-00", "interface-", "interface-4294967296", "results", "kind", "id", "x", ""]
TEXTS = ["", "own", "string", "resource", "a:b/c@1.2.3", "my:notes", "my:notes@1.2", ":", "@", "A", "é", "a" * 3000, "\u0000", "[method]x.y"]


class Raw:
    """A value that is written as this text."""

    def __init__(self, text):
        self.text = text


class Members(list):
    """The members of an object, each a list of its name and its value."""


def parsed(text):
    return json.loads(text, object_pairs_hook=lambda pairs: Members([list(it) for it in pairs]))


def written(value):
    if isinstance(value, Raw):
        return value.text
    if isinstance(value, Members):
        return "{" + ",".join(json.dumps(name) + ":" + written(it) for name, it in value) + "}"
    if isinstance(value, list):
        return "[" + ",".join(written(it) for it in value) + "]"
    return json.dumps(value, ensure_ascii=False)


def places(value, found):
    """The value that each inner value is in, and its position there."""
    for at, it in enumerate(value):
        inside = it[1] if isinstance(value, Members) else it
        found.append((value, at))
        if isinstance(inside, list):
            places(inside, found)
    return found


def value_at(place):
    value, at = place
    return value[at][1] if isinstance(value, Members) else value[at]


def put(place, new):
    value, at = place
    if isinstance(value, Members):
        value[at][1] = new
    else:
        value[at] = new


def nested(dice):
    """Arrays and objects in each other, up to 100,000 times, often at the limit of 128."""
    depth = dice.choice([1, 100, 120, 126, 127, 128, 129, 1000, 100_000])
    first, last = dice.choice([("[", "]"), ('{"a":', "}"), ('{"record":', "}")])
    return Raw(first * depth + dice.choice(["0", "null", ""] if first == "[" else ["0", "null"]) + last * dice.choice([depth, depth, 0]))


def with_other_tree(dice, tree):
    """One thing in the tree is changed. Values may be shared afterwards; they are only written."""
    found = places(tree, [])
    place = dice.choice(found)
    value, at = place
    way = dice.randrange(9)
    if way == 0:
        del value[at]
    elif way == 1:
        value.insert(dice.randrange(len(value) + 1), list(value[at]) if isinstance(value, Members) else value[at])
    elif way == 2 and isinstance(value, Members):
        value[at][0] = dice.choice([dice.choice(KEYS), value[at][0][:-1], value[at][0] + "s", dice.choice(value)[0]])
    elif way in (2, 3):
        value.insert(dice.randrange(len(value)), value.pop(at))
    elif way == 4:
        numbers = [it for it in found if type(value_at(it)) is int]
        if numbers:
            chosen = dice.choice(numbers)
            put(chosen, Raw(dice.choice(NUMBERS + [str(value_at(chosen) + 1), str(dice.randrange(8))])))
    elif way == 5:
        texts = [it for it in found if isinstance(value_at(it), str)]
        if texts:
            put(dice.choice(texts), dice.choice(TEXTS + [value_at(dice.choice(texts))]))
    elif way == 6:
        put(place, Raw(written(value_at(dice.choice(found)))))
    elif way == 7:
        put(place, nested(dice))
    else:
        put(place, Raw(dice.choice(NUMBERS + ["[]", "{}", '""'])))


def with_other_bytes(dice, text):
    """The text is cut, or bytes in it are changed, taken out or put in."""
    at = dice.randrange(len(text) + 1)
    size = 1 << dice.randrange(8)
    way = dice.randrange(5)
    if way == 0:
        return text[:at]
    if way == 1:
        return text[:at] + text[at + size :]
    if way == 2:
        return text[:at] + text[at : at + size] + text[at:]
    if way == 3:
        return text[:at] + dice.choice([dice.randbytes(1), b'"', b"\\", b"{", b"]", b",", b"\xff", b"\xed\xa0\x80"]) + text[at:]
    changed = bytearray(text)
    for _ in range(1 << dice.randrange(4)):
        if changed:
            changed[dice.randrange(len(changed))] = dice.choice([dice.randrange(256), 0x22, 0x5C, 0x7B, 0x30])
    return bytes(changed)


def case(number, seed, originals):
    """The text of a case, and which of the originals it was."""
    dice = random.Random("%s %d" % (seed, number))
    chosen = originals[-1 if number % 10 == 0 else 0]
    text = chosen.text
    ways = dice.choice([1, 1, 2, 3])
    if dice.random() < 0.2:
        for _ in range(ways):
            text = with_other_bytes(dice, text)
        return text, chosen
    tree = parsed(text)
    for _ in range(ways):
        if tree:
            with_other_tree(dice, tree)
    return written(tree).encode(), chosen


class Original:
    """A text of worlds, and the arguments after it."""

    def __init__(self, path, words):
        self.text = path.read_bytes()
        self.words = words


def originals_of(folder):
    example = Original(
        EXAMPLE / "notes.json",
        ["my:notes/app", EXAMPLE / "main.wasm", "--adapt", "old-notes=%s" % (EXAMPLE / "adapter.wasm")]
        + ["--adapter-export", "old-notes=is-ready"],
    )
    if folder is None:
        return [example]
    name = "wasi_snapshot_preview1"
    words = ["wasi:cli/command", folder / "wasi-hello.wasm", "--adapt", "%s=%s" % (name, folder / "wasi-command-adapter.wasm")]
    return [example, Original(folder / "wasi-command.json", words + ["--adapter-export", name + "=wasi:cli/run@0.2.6"])]


def fault_in(ran, files):
    """What is wrong with a run, if anything is."""
    if ran.returncode not in (0, 1):
        return "status %s" % ran.returncode
    printed, silent = (ran.stdout, ran.stderr) if ran.returncode == 0 else (ran.stderr, ran.stdout)
    if silent:
        return "the other output"
    lines = printed.split(b"\n")
    if lines.pop() != b"":
        return "no end of a line"
    if any(CONTROL.search(it) for it in lines):
        return "a control character"
    if ran.returncode == 0:
        if not all(LINE.fullmatch(it) for it in lines):
            return "no line of a plan"
        return None if files else "no file"
    if not printed.startswith(b"wcplan: ") or len(printed) < 10:
        return "no line of a fault"
    if not all(line.startswith(b"  ") for line in lines[1:]):
        return "several lines"
    return "a file" if files else None


def try_case(program, text, original, folder):
    """Runs the program on a case: what went wrong, the status and the front of the line, and the time."""
    worlds, out = folder / "worlds.json", folder / "out"
    worlds.write_bytes(text)
    out.mkdir(exist_ok=True)
    for it in out.iterdir():
        it.unlink()
    words = [program, worlds, *original.words, "--out", out]
    begin = time.perf_counter()
    try:
        ran = subprocess.run(words, stdin=subprocess.DEVNULL, stdout=subprocess.PIPE, stderr=subprocess.PIPE, timeout=SECONDS)
    except subprocess.TimeoutExpired:
        return "no end", "no end", SECONDS
    seconds = time.perf_counter() - begin
    kind = "status %s%s" % (ran.returncode, kind_of(ran.stderr) if ran.returncode == 1 else "")
    return fault_in(ran, list(out.iterdir())), kind, seconds


def kind_of(printed):
    """The kind of a fault: its name, and of the worlds' text what is wrong, without the path there."""
    words = printed.decode(errors="replace").split("\n")[0].split(": ")[1:]
    if words[:1] == ["Json"]:
        return " Json: " + re.sub(r"byte \d+", "byte N", words[-1])
    return " " + re.sub("`.*", "..", words[0]) if words else ""


def main():
    parser = argparse.ArgumentParser(description=__doc__, formatter_class=argparse.RawDescriptionHelpFormatter)
    parser.add_argument("--program", type=pathlib.Path, default=PROGRAM)
    parser.add_argument("--cases", type=int, default=200_000)
    parser.add_argument("--first", type=int, default=0)
    parser.add_argument("--seed", default="1")
    parser.add_argument("--folder", type=pathlib.Path)
    words = parser.parse_args()
    originals = originals_of(words.folder)
    resource.setrlimit(resource.RLIMIT_AS, (MEMORY, MEMORY))
    counts, wrong, slowest, began = collections.Counter(), 0, 0, time.monotonic()
    with tempfile.TemporaryDirectory() as folder:
        for number in range(words.first, words.first + words.cases):
            text, original = case(number, words.seed, originals)
            fault, kind, seconds = try_case(words.program, text, original, pathlib.Path(folder))
            counts[kind] += 1
            slowest = max(slowest, seconds)
            if fault:
                wrong += 1
                KEPT.mkdir(parents=True, exist_ok=True)
                (KEPT / ("%s-%d.json" % (words.seed, number))).write_bytes(text)
                print("case %d: %s" % (number, fault), flush=True)
    for kind in sorted(counts):
        print("%8d %s" % (counts[kind], kind))
    line = "%d cases in %d s, slowest run %.2f s, %d went wrong"
    print(line % (words.cases, time.monotonic() - began, slowest, wrong))
    return 1 if wrong else 0


if __name__ == "__main__":
    sys.exit(main())
