#!/usr/bin/env python3
"""Compares what `--imports` and `wcplan --why KEY` print with the results of another search.

    checks/summaries.py [--wcplan PROGRAM] [--wcwhy PROGRAM] [--cases N] FOLDER

The programs are those in crates/*/out by default. FOLDER has wasi-command.json, the world `wasi:cli/command`, and
wasi-command-adapter.wasm, the adapter `wasi_snapshot_preview1`. Main modules are the other core modules there that export
`_start`, and N random ones (40), which import functions of the adapter and of the world. `wcwhy` is asked about ten times N
random components.

Of --imports each line is made again (docs/PATHS.md): which imports are named by reached functions, which exports of an adapter
lead to an interface, whether it goes with them, and how many bytes their bodies have. Interfaces that are imported for their
types alone are left out. Of --why KEY, for each interface, and of --why all, the tree and the lines have to be as chains.py has
them; which imports are shown for their types alone is taken from the tree.

A line is printed for each difference, and at last how much agrees. The status is 1 if something differs, or if there is nothing.
"""
import argparse
import collections
import itertools
import json
import os
import pathlib
import random
import subprocess
import sys
import tempfile

from component_paths import Adapter, Component, difference, different_in, way_of, with_roots
from module_bytes import HEADER, name, number, number_at, section, vector
from module_items import Module
from random_components import ADAPTERS, adapter_of, main_of

sys.path += [str(pathlib.Path(__file__).resolve().parent.parent / folder) for folder in ("tools", "python")]
from nuigatre._lines import function_text, lines, word
from repository import TOP

ADAPTER = "wasi_snapshot_preview1"
RUN = "wasi:cli/run@0.2.6#run"
REALLOC = "cabi_import_realloc"
ADAPTER_FILE = "wasi-command-adapter.wasm"
# the kinds of entries of --imports, in their order
KINDS = "main", "goes", "stays"
# functions of the world that a main module imports for itself, with their types
OWN = [("wasi:clocks/monotonic-clock@0.2.6", "now", b"\x60\0\1\x7e"),
       ("wasi:random/random@0.2.6", "get-random-u64", b"\x60\0\1\x7e"),
       ("wasi:sockets/instance-network@0.2.6", "instance-network", b"\x60\0\1\x7f")]
NOTHING = b"\x60\0\0"
# what puts a value of a type on the stack
ZERO = {0x7F: b"\x41\0", 0x7E: b"\x42\0", 0x7D: b"\x43\0\0\0\0", 0x7C: b"\x44" + bytes(8)}


def call_of(index, kind):
    """A call with zeros, whose result is dropped."""
    parameters, at = number_at(kind, 1)
    results, _ = number_at(kind, at + parameters)
    return b"".join(ZERO[it] for it in kind[at:at + parameters]) + b"\x10" + number(index) + b"\x1a" * results


def spelled(kind):
    """The bytes of a type."""
    return b"\x60" + b"".join(map(vector, kind))


def main_module(adapter, chance, own=3):
    """The bytes of a random main module, which imports at most `own` functions of the world."""
    offered = [(text, item) for text, item in adapter.exports if item[0] == "func" and text != RUN]
    offered = [(ADAPTER, text, spelled(adapter.type_of(item))) for text, item in offered]
    imported = chance.choices(offered, k=chance.randint(1, 8)) + chance.sample(OWN, chance.randint(0, own))
    chance.shuffle(imported)
    count = chance.randint(2, 12)
    kinds = [kind for _, _, kind in imported] + [NOTHING] * count
    first = len(imported)
    bodies = []
    for _ in range(count):
        called = [chance.randrange(chance.choice((first, first + count))) for _ in range(chance.randint(0, 3))]
        indirect = b"\x41\0\x11" + number(first) + b"\0" if chance.random() < 0.3 else b""
        body = b"\0" + indirect + b"".join(call_of(it, kinds[it]) for it in called) + b"\x0b"
        bodies.append(number(len(body)) + body)
    # the last function is the realloc
    realloc = b"\0\x41\0\x0b"
    bodies.append(number(len(realloc)) + realloc)
    kinds.append(b"\x60\4\x7f\x7f\x7f\x7f\1\x7f")
    exports = [name("memory") + b"\2\0", name("cabi_realloc") + b"\0" + number(first + count)]
    exports += [name(text) + b"\0" + number(first + chance.randrange(count)) for text in ("_start", "first", "second")]
    filled = [number(first + chance.randrange(count)) for _ in range(chance.randint(0, 3))]
    return HEADER + b"".join([
        section(1, vector(kinds)),
        section(2, vector([name(it[0]) + name(it[1]) + b"\0" + number(place) for place, it in enumerate(imported)])),
        section(3, vector([number(place) for place in range(first, len(kinds))])),
        section(4, b"\1\x70\0" + number(len(filled))),
        section(5, b"\1\0\1"),
        section(7, vector(exports)),
        section(8, number(first + chance.randrange(count))) if chance.random() < 0.2 else b"",
        section(9, vector([b"\0\x41\0\x0b" + vector(filled)] if filled else [])),
        section(10, vector(bodies)),
    ])


def counted(count):
    return f"{count} import{'' if count == 1 else 's'}"


def once(names):
    """Names, each of which is none that is equal to the one before it."""
    return [name for name, _ in itertools.groupby(names)]


class Summary:
    """What the modules of a component import, by interfaces."""

    def __init__(self, component):
        self.component = component
        self.labels = [[(text, why, set(component.search([[((part, item), {})]]))) for text, item, why in it.labels()]
                       for part, it in enumerate(component.adapters, 1)]
        self.live = set().union(*(found for labels in self.labels for _, _, found in labels))
        self.imports = [(source, item) for source, _, item in component.imports() if self.is_counted(item)]

    def is_counted(self, item):
        """Whether an import counts; of a core module in a component's file all do that are no functions."""
        adapter = self.component.adapters[item[0] - 1] if item[0] else None
        return adapter is None or item in self.live or adapter.is_library or (adapter.is_core and item[1][0] != "func")

    def main_part(self, own):
        """What the main module imports of an interface, as the JSON has it; nothing, if it imports nothing."""
        main = self.component.main
        own = {item for part, item in own if part == 0}
        by = [it[1] for it in sorted(self.component.reached) if it[0] == "func" and not own.isdisjoint(main.names[it])]
        by = [{"index": it, "name": main.texts.get(it)} for it in by]
        return [{"adapter": None, "imports": len(own), "by": by}] if own else []

    def adapter_part(self, part, own):
        """The same of an adapter."""
        sizes, labels = self.component.modules[part].sizes, self.labels[part - 1]
        led = [(text, why) for text, why, found in labels if not found.isdisjoint(own)]
        gone = set().union(*(found for _, _, found in labels if not found.isdisjoint(own)))
        gone = gone.difference(*(found for _, _, found in labels if found.isdisjoint(own)))
        gone = [sizes[item] for _, item in gone if item in sizes]
        count, name = sum(it[0] == part for it in own), self.component.names_of_parts[part]
        lists = {why: once(text for text, of in led if of == why) for why in ("exports", "stays", "roots")}
        return [{"adapter": name, "imports": count, **lists, "functions": len(gone), "bytes": sum(gone)}] if count else []

    def is_library(self, module):
        return any(it.is_library and it.name == module["adapter"] for it in self.component.adapters)

    def kind(self, modules):
        if modules[0]["adapter"] is None:
            return "main"
        return "stays" if any(it["stays"] or it["roots"] or self.is_library(it) for it in modules) else "goes"

    def entries(self):
        """The interfaces, each with the modules that import something of it; roots that are no exports are apart."""
        found = []
        for interface in dict.fromkeys(source for source, _ in self.imports):
            own = {item for source, item in self.imports if source == interface}
            modules = self.main_part(own)
            for part in range(1, len(self.component.modules)):
                modules += self.adapter_part(part, own)
            found.append({"interface": interface, "kind": self.kind(modules), "modules": modules})
        return sorted(found, key=lambda it: (KINDS.index(it["kind"]), -sum(module.get("bytes", 0) for module in it["modules"])))

    def text(self, module):
        """What is said of a module in a line."""
        if module["adapter"] is None:
            by = [function_text(it) for it in module["by"]]
            more = f" and {len(by) - 3} more" if len(by) > 3 else ""
            return f"{counted(module['imports'])} of main" + (f" by {', '.join(by[:3])}{more}" if by else "")
        end = " ".join([f"{module['bytes']} bytes, needed only for", *map(word, module["exports"])])
        if self.is_library(module):
            end = "always needed"
        elif module["stays"] or module["roots"]:
            end = f"always needed for {' '.join([*map(word, module['stays']), *module['roots']])}"
        return f"{counted(module['imports'])} of adapter {word(module['adapter'])}, {end}"

    def json(self):
        """What --imports --json has."""
        def joined(it):
            return {key: it["stays"] + it["roots"] if key == "stays" else of for key, of in it.items() if key != "roots"}

        return [{**it, "modules": list(map(joined, it["modules"]))} for it in self.entries()]

    def lines(self):
        """The lines of --imports."""
        return [f"{word(it['interface'])}: {'; '.join(map(self.text, it['modules']))}" for it in self.entries()]


def different_why(component, interface, tree, printed):
    """Where the answer to `--why` of an interface, or of all, differs; and how many paths, marks and items it has."""
    imports = [it for it in component.imports() if ":" in it[0] and interface in (it[0], "all") and it[2] in component.found]
    targets = [it for _, _, it in imports]
    for way in tree["ways"]:
        if way["name"] is None and way["item"] is not None:
            it = tree["modules"][way["module"]]["items"][way["item"]]
            targets.append((way["module"], (it["space"], it["index"])))
    asked = set(targets[:len(imports)]) if interface != "all" else None
    wanted, places = component.tree(targets, asked)
    ways = [way_of(*it, places) for it in imports]
    items = [it for module in wanted for it in module["items"] if asked is not None]
    counts = {"paths": len(ways), "marks": sum(it["only"] for it in items), "items": len(items)}
    different = difference(wanted, with_roots(tree["modules"])) or different_in("line", list(lines(tree, True)), printed)
    return different or different_in("way", ways, [it for it in tree["ways"] if it["name"] is not None]), counts


def printed(command):
    """What a program prints."""
    ran = subprocess.run(list(map(str, command)), capture_output=True, text=True, check=False)
    if ran.returncode:
        sys.exit(f"{' '.join(map(str, command))}: status {ran.returncode} {ran.stderr}")
    return ran.stdout


def judged_world(program, given, path, adapter):
    """What is wrong in the answers of `wcplan` on a main module, and how much was compared."""
    main, file = Module(path.read_bytes()), os.path.join(given, ADAPTER_FILE)
    component = Component(main, [Adapter(ADAPTER, adapter, main, always=[RUN, REALLOC])])
    summary = Summary(component)
    summary.imports = [it for it in summary.imports if ":" in it[0]]
    command = [program, os.path.join(given, "wasi-command.json"), path, "--adapt", f"{ADAPTER}={file}"]
    wanted, found = summary.lines(), [it for it in printed([*command, "--imports"]).splitlines() if ": types, used by " not in it]
    counts, wrong = collections.Counter(lines=len(wanted)), [different_in("--imports", wanted, found)]
    for interface in [*dict.fromkeys(source for source, _ in summary.imports), "all"]:
        asked = [*command, "--why", interface]
        text, more = different_why(component, interface, json.loads(printed([*asked, "--json"])), printed(asked).split("\n")[:-1])
        counts.update(more)
        wrong.append(text and f"--why {interface}: {text}")
    return [f"{path.name}: {it}" for it in wrong if it], counts


def judged_modules(program, folder, chance):
    """The same of `wcwhy --imports` on a random component."""
    made = [(text, *adapter_of(chance)) for text in ADAPTERS[:chance.randint(0, 2)]]
    data, path = main_of(chance, [(text, exports) for text, _, exports in made]), folder / "main.wasm"
    path.write_bytes(data)
    command, main, adapters = [program, path, "--imports"], Module(data), []
    for text, data, _ in made:
        folder.joinpath(text + ".wasm").write_bytes(data)
        adapters.append(Adapter(text, Module(data), main))
        command.append(f"--adapt={text}={folder / text}.wasm")
    wanted = Summary(Component(main, adapters)).lines()
    wrong = different_in("wcwhy --imports", wanted, printed(command).splitlines())
    return [wrong] if wrong else [], {"lines": len(wanted)}


def main():
    parser = argparse.ArgumentParser(description=__doc__, formatter_class=argparse.RawDescriptionHelpFormatter)
    for program in "wcplan", "wcwhy":
        parser.add_argument("--" + program, default=TOP / "crates" / program / "out" / program, type=os.path.abspath)
    parser.add_argument("--cases", default=40, type=int)
    parser.add_argument("folder", metavar="FOLDER", type=pathlib.Path)
    given = parser.parse_args()
    adapter, chance = Module(given.folder.joinpath(ADAPTER_FILE).read_bytes()), random.Random(1)
    wrong, counts = [], collections.Counter()
    with tempfile.TemporaryDirectory() as made:
        folder, paths = pathlib.Path(made), []
        for path in sorted(given.folder.glob("*.wasm")):
            if path.read_bytes().startswith(HEADER) and "_start" in dict(Module(path.read_bytes()).exports):
                paths.append(path)
        for case in range(given.cases):
            paths.append(folder / f"random-{case}.wasm")
            paths[-1].write_bytes(main_module(adapter, chance))
        answers = [judged_world(given.wcplan, given.folder, path, adapter) for path in paths]
        answers += [judged_modules(given.wcwhy, folder, chance) for _ in range(10 * given.cases)]
    for more, count in answers:
        wrong += more
        counts.update(count)
    count = f"{counts['lines']} lines, {counts['paths']} paths, and {counts['marks']} marks of {counts['items']} items"
    modules = f"{len(paths)} main modules and {10 * given.cases} random components"
    print("\n".join([*wrong, f"{modules}: {count}, {len(wrong)} differ"]))
    return 1 if wrong or not counts["lines"] or not counts["marks"] else 0


if __name__ == "__main__":
    sys.exit(main())
