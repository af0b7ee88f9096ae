#!/usr/bin/env python3
"""Compares what `wcwhy COMPONENT` prints with what another reader and another search find in the component's file.

    checks/component-files.py [--program PROGRAM] [--cases N] [--damaged N] [--linked N] [FILE ..]

PROGRAM is crates/wcwhy/out/wcwhy by default. Judged are

- the components FILE, and N random ones (200), with and without names, with repeated imports, start functions, segments, libraries
  and components inside;
- N damaged ones (2,000): cut, with other bytes, sizes and ids of sections, names that collide or are cut, several modules that serve
  one name, no core module, components in one another;
- components that Rust's `wasm-component-ld` makes of N random main modules (0), with its adapters and in random worlds: there the
  roles have to be the same by the names of core modules and without them.

component_roles.py reads the files, and tells which core module is which. Each component is asked for all paths, for imports,
functions and exports, for --imports, each with --json too, and for core modules (--core N --out FILE). All has to be as
component_paths.py finds it, a fault its text and its byte. If a core module itself is damaged, only the form of the answer and its
status are judged. No answer may take a gigabyte of memory, or 20 seconds.

A line is printed for each difference, and at last how much agrees; the status is 1 if something differs, or if there is nothing.
"""
import argparse
import collections
import json
import os
import pathlib
import random
import resource
import subprocess
import sys
import tempfile

from adapters import linked_component, linkers, modules_inside, read
from built_in_worlds import World, module_of
from chains import WASI, Judge
from component_paths import different_in
from component_roles import File, Refused, is_component
from module_bytes import HEADER, name, number, section, spans, vector
from module_items import Module
from random_components import COMPONENT, FIXUP, SHIM, component_of, names_of_modules
from summaries import Summary, main_module

sys.path.append(str(pathlib.Path(__file__).resolve().parent.parent / "tools"))
from repository import TOP

MEMORY, SECONDS = 1 << 30, 20
MANY = 10_000


def limit():
    resource.setrlimit(resource.RLIMIT_AS, (MEMORY, MEMORY))


class FileJudge(Judge):
    """Judges components by their files."""

    def __init__(self, program, folder, chance):
        super().__init__(program, folder, chance)
        self.counts, self.warned = collections.Counter(), ""

    def run(self, words):
        """What is printed on both outputs, and the status; of a run that takes too long, nothing."""
        try:
            ran = subprocess.run([self.program, *words], capture_output=True, text=True, errors="surrogateescape", check=False,
                                 timeout=SECONDS, preexec_fn=limit)
        except subprocess.TimeoutExpired:
            return "", f"more than {SECONDS} seconds", -1
        return ran.stdout, ran.stderr, ran.returncode

    def answer(self, words):
        printed, said, status = self.run(words)
        if status:
            return "", said or f"status {status}"
        return printed, "" if said == self.warned else f"on standard error {said!r}, {self.warned!r} wanted"

    def hold(self, words, different):
        self.asked += 1
        if different:
            self.wrong.append(f"{' '.join(words)}: {different}"[:1000])

    def refused(self, words, text, byte=None):
        """Compares a fault, as lines and as JSON, with a text and the byte that it has."""
        place = byte if byte is None else {"kind": "bytes", "adapter": None, "offset": byte, "section": None}
        wanted = [("", f"wcwhy: {text}\n", 1), ("", {"text": text, "place": place}, 1)]
        found = [self.run(words), self.run([*words, "--json"])]
        try:
            found[1] = found[1][0], json.loads(found[1][1]), found[1][2]
        except ValueError:
            pass
        self.counts["faults"] += 1
        self.hold(words, different_in("fault", wanted, found))

    def judge_file(self, path, data, rounds, core=None):
        """Asks about a component's file, each core module of which can be read."""
        words = [path] if core is None else [path, f"--core={core}"]
        try:
            file = File(data)
            roles = file.roles(core)
            component = file.component(core)
        except Refused as why:
            self.refused(words, why.text, why.byte)
            return
        count = f"{file.inside} component{'s' * (file.inside > 1)} inside with core modules {'are' if file.inside > 1 else 'is'} not followed"
        self.warned = f"wcwhy: warning: {count}\n" if file.inside else ""
        self.counts.update(role[0] for role in roles)
        closed = next((it for it in component.adapters if not it.is_library and it.closed()), None)
        if closed:
            self.unread(words, closed.index)
            return
        self.summarise(component, words)
        for turn in range(rounds):
            exports = self.some(dict(component.main.exports), 3) if turn else []
            keys = dict.fromkeys(source + chosen for source, text, _ in component.imports() for chosen in ("", "=" + text))
            functions = self.some(range(component.main.counts["func"]), 2) if turn % 2 else []
            if component.is_fault(functions):
                self.unread([*words, *exports, *(f"--func={it}" for it in functions)], [it[0] for it in roles].index("main"))
            else:
                self.ask(file.component(core, exports), [*words, *exports], self.some(keys, 3) if turn else [], functions)
        self.write_modules(file, path)

    def unread(self, words, index):
        """Looks for the fault of a function's body in a core module."""
        printed, said, status = self.run(words)
        self.counts["faults"] += 1
        is_wanted = said.startswith(f"wcwhy: core module {index}: LiveBody\n") and not printed and status == 1
        self.hold(words, "" if is_wanted else f"core module {index}: LiveBody wanted, not {said!r}")

    def summarise(self, component, words):
        """Compares --imports, as lines and as JSON."""
        wanted, words = Summary(component), [*words, "--imports"]
        printed, fault = self.answer(words)
        self.counts["lines"] += len(wanted.lines())
        self.hold(words, fault or different_in("line", wanted.lines(), printed.splitlines()))
        printed, fault = self.answer([*words, "--json"])
        self.hold(words, fault or different_in("interface", wanted.json(), json.loads(printed)["imports"]))

    def write_modules(self, file, path):
        """Compares a core module that --out writes with its bytes in the file."""
        index, out = self.chance.randrange(len(file.modules)), os.path.join(self.folder, "out.wasm")
        ran = self.run([path, f"--core={index}", f"--out={out}"])
        different = different_in("output", ["", "", 0], ran) or ("" if read(out) == file.modules[index] else "other bytes")
        self.hold([path, f"--core={index}"], different)

    def judge_damaged(self, path, data, whole):
        """Asks about a damaged file. If its core modules are some of these whole ones, all is compared, else only the form."""
        try:
            is_known = not is_component(data) or set(File(data).modules) <= whole
        except Refused:
            is_known = True
        if is_known and is_component(data):
            self.judge_file(path, data, 1)
            return
        self.counts["only form"] += 1
        for words in [path], [path, "--imports"], [path, "--json"]:
            printed, said, status = self.run(words)
            is_fault = status == 1 and not printed and (said.startswith("wcwhy: ") or json.loads(said)["text"])
            is_answer = status == 0 and all(it.startswith("wcwhy: warning: ") for it in said.splitlines())
            self.hold(words, "" if is_fault or is_answer else f"status {status}: {said!r}")

    def judge_linked(self, path, data):
        """Asks about the component of a linker with its names, and then without."""
        stripped = COMPONENT + b"".join(data[start:end] for ident, start, _, end in spans(data) if ident)
        named, unnamed = File(data), File(stripped)
        try:
            told = named.roles(), unnamed.roles()
        except Refused as why:
            self.hold([path], f"roles: {why.text}")
            return
        self.counts["linked"] += 1
        # the shim that only calls a start function has exports as an adapter has
        self.counts["told the same"] += told[0] == told[1]
        if told[0] != told[1]:
            print(f"{path}: {told[0]} by names, {told[1]} without")
        self.judge_file(path, data, 2)
        self.judge_file(self.file("stripped", stripped), stripped, 2)


def damaged(chance, data):
    """A component's file in which something is changed."""
    at = [it[:2] for it in spans(data)]
    kind = chance.choice(("cut", "byte", "byte", "id", "size", "long", "version", "exchange", "twice", "without"))
    if kind == "cut":
        return data[:chance.randrange(len(data))]
    if kind == "byte":
        made = bytearray(data)
        for _ in range(chance.randint(1, 3)):
            made[chance.randrange(len(made))] = chance.randrange(256)
        return bytes(made)
    if kind == "version":
        return data[:4] + bytes([chance.choice((0, 1, 12, 13, 14, 255)), chance.choice((0, 0, 1))]) + data[6:]
    parts = [(ident, data[begin:end]) for ident, _, begin, end in spans(data)]
    place = chance.randrange(len(parts)) if parts else 0
    if kind == "without" or not at:
        parts[place:place + 1] = []
    elif kind == "twice":
        parts.insert(place, parts[chance.randrange(len(parts))])
    elif kind == "exchange":
        chance.shuffle(parts)
    made = [section(*it) for it in parts]
    if kind == "id":
        made[place] = bytes([chance.choice((13, 14, 99, 255))]) + made[place][1:]
    elif kind == "size":
        made[place] = made[place][:1] + chance.choice((number(1 << 31), number((1 << 32) - 1), b"\x80\x80\x80\x80\x10", b"\xff" * 5, number(1 << 20))) + made[place][2:]
    elif kind == "long":
        size = len(parts[place][1])
        long = bytes(size >> 7 * it & 127 | 128 for it in range(4)) + bytes([size >> 28])
        made[place] = made[place][:1] + long[:5] + parts[place][1]
    return data[:8] + b"".join(made)


def serving(text, names):
    """A module that exports functions of these names, and one that imports them from a name."""
    body = section(3, number(len(names)) + bytes(len(names))) + section(7, vector([name(it) + b"\0" + number(n) for n, it in enumerate(names)]))
    types = section(1, vector([b"\x60\0\0"]))
    wanted = HEADER + types + section(2, vector([name(text) + name(it) + b"\0\0" for it in names]))
    return HEADER + types + body + section(10, vector([b"\2\0\x0b"] * len(names))), wanted


def shapes():
    """Components that are chosen to be large, deep or unclear: a name, and the file."""
    one, asks_one = serving("a", ["f"])
    two, _ = serving("a", ["f", "g"])
    _, asks_many = serving("a", [f"f{it}" for it in range(2_000)])
    deep = b""
    for _ in range(2_000):
        deep = section(4, COMPONENT + deep)
    yield "header", COMPONENT
    yield "many", COMPONENT + section(1, asks_one) + section(1, SHIM) * MANY
    yield "many that serve", COMPONENT + section(1, asks_one) + section(1, one) * MANY
    yield "many others", COMPONENT + section(1, HEADER) + section(1, one) * MANY
    yield "a hundred", COMPONENT + section(1, asks_many) + section(1, one) * 100
    yield "one more", COMPONENT + section(1, asks_many) + section(1, one) * 101
    yield "two serve one", COMPONENT + section(1, asks_one) + section(1, one) + section(1, two)
    yield "deep", COMPONENT + deep
    yield "deep beside", COMPONENT + section(1, asks_one) + section(1, one) + deep
    yield "only inside", COMPONENT + section(4, COMPONENT + section(1, FIXUP)) * 3
    for title, named in ("two mains", [(0, "main"), (1, "main")]), ("two of one name", [(1, "wit-component:adapter:a"), (2, "wit-component:adapter:a")]), \
            ("past the last", [(0, "main"), (9, "main"), (2, "wit-component:adapter:a")]), ("named twice", [(1, "main"), (1, "other"), (0, "main")]), \
            ("empty", [(0, ""), (1, "wit-component:adapter:"), (2, "core-1")]), ("libraries", [(2, "main"), (1, "a"), (0, "a")]):
        yield title, COMPONENT + section(1, asks_one) + section(1, one) + section(1, two) + names_of_modules(named)
    yield "names of all", COMPONENT + section(1, one) * MANY + names_of_modules([(it, "main" if it == 7 else f"l{it}") for it in range(MANY)])


def linked(chance, count, folder):
    """Components of random main modules that Rust's linkers make: their files."""
    for linker in linkers():
        adapters = [(WASI, Module(it)) for it in modules_inside(read(linker))]
        for turn in range(count):
            kind = turn % 3
            if kind < 2:
                # with the adapter of commands or of reactors; without imports of the world, of which a linker knows nothing
                main = main_module(adapters[kind][1], chance, 0)
                options = ["--wasi-adapter", ("command", "reactor")[kind]]
            else:
                world = World(turn)
                main = module_of(world.imports, [("cabi_realloc", ["i32"] * 4, ["i32"]), *world.exports], "exported")
                wit = os.path.join(folder, "demo.wit")
                pathlib.Path(wit).write_text("\n".join(world.wit), encoding="utf-8")
                options = ["--wasi-adapter", "none", "--component-type", wit]
            made, why = linked_component(linker, main, options, folder)
            if made:
                yield f"{kind}-{turn}", made
            else:
                print(f"not linked: {turn}: {why}")


def main():
    parser = argparse.ArgumentParser(description=__doc__, formatter_class=argparse.RawDescriptionHelpFormatter)
    parser.add_argument("--program", default=TOP / "crates" / "wcwhy" / "out" / "wcwhy", type=os.path.abspath)
    for option, count in ("cases", 200), ("damaged", 2000), ("linked", 0):
        parser.add_argument("--" + option, default=count, type=int, metavar="N")
    parser.add_argument("files", nargs="*", metavar="FILE")
    given = parser.parse_args()
    with tempfile.TemporaryDirectory() as folder:
        judge, whole = FileJudge(given.program, folder, random.Random(1)), []
        for path in given.files:
            whole.append(read(path))
            judge.judge_file(path, whole[-1], 20)
        for case in range(given.cases):
            whole.append(component_of(judge.chance))
            path, core = judge.file(f"case-{case}", whole[-1]), judge.chance.choice((None, None, None, 0, 1, 2, 9))
            judge.judge_file(path, whole[-1], 4, core)
        for title, data in shapes():
            judge.judge_file(judge.file(title.replace(" ", "-"), data), data, 1)
        for case in range(given.damaged if whole else 0):
            data = judge.chance.choice(whole)
            modules = {data[begin:end] for ident, _, begin, end in spans(data) if ident == 1}
            made = damaged(judge.chance, data)
            judge.judge_damaged(judge.file("damaged", made), made, modules)
            if len(judge.wrong) > 50:
                break
        for title, data in linked(judge.chance, given.linked, folder):
            judge.judge_linked(judge.file("linked-" + title, data), data)
    counts = ", ".join(f"{count} {what}" for what, count in sorted(judge.counts.items()))
    print("\n".join([*judge.wrong, f"{judge.asked} questions: {judge.paths} paths, {judge.marks} marks of {judge.items} items, {counts}; "
                     f"{len(judge.wrong)} differ"]))
    return 1 if judge.wrong or not judge.paths or not judge.marks else 0


if __name__ == "__main__":
    sys.exit(main())
