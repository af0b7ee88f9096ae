#!/usr/bin/env python3
"""Compares the paths that `wcwhy` prints, alone and through adapters, with those of another search, breadth first in Python.

    checks/chains.py [--program PROGRAM] [--cases N] [MAIN ..]

PROGRAM is crates/wcwhy/out/wcwhy by default. Judged are the adapters that Rust's `wasm-component-ld` carries, each alone; the
main modules MAIN (those of examples/ by default), alone and with each of these adapters; and N random components (1,000) of a
main module and up to two adapters, alone and with them. Each is asked for all paths, then by random exports, imports and
functions.

The modules are read by module_items.py. By component_paths.py each import has the shortest path through the component from the
first list of roots that leads there, of several the first by the order of roots and of names; and an item is marked just if
nothing that is asked for is reached without it. The JSON has to be exactly the tree of these paths, with marks and callers, and
the lines have to be those of the tree. A line is printed for each difference, and at last how many paths and marks agree; the
status is 1 if one differs, or if there is none.
"""
import argparse
import json
import os
import pathlib
import random
import subprocess
import sys
import tempfile

from adapters import linkers, modules_inside, read
from component_paths import Adapter, Component, difference, different_in, way_of, with_roots
from module_items import Module
from random_components import ADAPTERS, adapter_of, main_of

sys.path += [str(pathlib.Path(__file__).resolve().parent.parent / folder) for folder in ("tools", "python")]
from nuigatre._lines import asks, function_text, way_lines, word
from repository import TOP

WASI = "wasi_snapshot_preview1"


class Judge:
    """The program, a folder for modules, and what is found of it."""

    def __init__(self, program, folder, chance):
        self.program, self.folder, self.chance = program, folder, chance
        self.asked, self.paths, self.items, self.marks, self.wrong = 0, 0, 0, 0, []

    def file(self, name, data):
        path = os.path.join(self.folder, name + ".wasm")
        pathlib.Path(path).write_bytes(data)
        return path

    def answer(self, words):
        """What is printed, or nothing and the fault."""
        ran = subprocess.run([self.program, *words], capture_output=True, text=True, check=False)
        return (ran.stdout, "") if ran.returncode == 0 else ("", ran.stderr)

    def ask(self, component, words, keys=(), functions=()):
        """Compares the answers to some arguments, which ask for imports and for functions."""
        words = [*words, *(f"--import={it}" for it in keys), *(f"--func={it}" for it in functions)]
        self.asked += 1
        printed, fault = self.answer([*words, "--json"])
        if component.is_fault(functions):
            different = "" if '"LiveBody' in fault else fault or "no fault"
        else:
            different = fault or self.different(component, words, keys, sorted(set(functions)), json.loads(printed))
        if different:
            self.wrong.append(f"{' '.join(words)}: {different}"[:1000])

    def different(self, component, words, keys, functions, tree):
        """Where the tree or the lines differ, in words."""
        is_asked = bool(keys or functions)
        imports = [it for it in component.imports() if not is_asked or any(asks(key, *it[:2]) for key in keys)]
        imports = [it for it in imports if it[2] in component.found or (component.is_alone and keys)]
        # nothing leads to a function but roots of the main module
        ends = [("func", it) for it in functions if ("func", it) in component.reached]
        targets = [it for _, _, it in imports] + [(0, it) for it in ends]
        wanted, places = component.tree(targets, set(targets) if is_asked else None)
        ways = [way_of(*it, places) for it in imports if it[2] in places]
        ways += [{**way_of(None, None, (0, it), places), "import": None} for it in ends]
        items = [it for module in wanted for it in module["items"] if is_asked]
        self.paths, self.items = self.paths + len(ways), self.items + len(items)
        self.marks += sum(it["only"] for it in items)
        titles = [(f"{word(source)} {word(name)}", item in places) for source, name, item in imports]
        titles += [(function_text({"index": it, "name": component.main.texts.get(it)}), ("func", it) in ends) for it in functions]
        shown, found, left = set(), [], iter(ways)
        for title, is_reached in titles:
            found += way_lines(tree, next(left), shown, not component.is_alone) if is_reached else [title + ": not reached"]
        return (difference(wanted, with_roots(tree["modules"])) or different_in("way", ways, tree["ways"])
                or different_in("line", found, self.answer(words)[0].split("\n")[:-1]))

    def some(self, of, most):
        of = list(of)
        return self.chance.sample(of, min(len(of), self.chance.randint(0, most)))

    def judge(self, path, main, adapters, rounds):
        """Asks about a main module: with adapters, which have names, paths and modules, or alone."""
        words = [path, *(f"--adapt={name}={file}" for name, file, _ in adapters or ())]
        for count in range(rounds):
            exports = self.some(dict(main.exports), 5) if count else []
            more = [self.some(dict(module.exports), 2) if count else [] for _, _, module in adapters or ()]
            parts = adapters and [Adapter(name, module, main, asked) for (name, _, module), asked in zip(adapters, more)]
            component = Component(main, parts, exports)
            named = [f"--adapter-export={name}={it}" for (name, _, _), asked in zip(adapters or (), more) for it in asked]
            keys = dict.fromkeys(source + chosen for source, name, _ in component.imports() for chosen in ("", "=" + name))
            functions = self.some(range(main.counts["func"]), 2) if count % 2 else []
            self.ask(component, [*words, *named, *exports], self.some(keys, 3) if count else [], functions)


def main():
    parser = argparse.ArgumentParser(description=__doc__, formatter_class=argparse.RawDescriptionHelpFormatter)
    parser.add_argument("--program", default=TOP / "crates" / "wcwhy" / "out" / "wcwhy", type=os.path.abspath)
    parser.add_argument("--cases", default=1000, type=int)
    parser.add_argument("mains", nargs="*", metavar="MAIN", default=sorted((TOP / "examples").glob("*.wasm")))
    given = parser.parse_args()
    with tempfile.TemporaryDirectory() as folder:
        judge = Judge(given.program, folder, random.Random(1))
        carried = [(WASI, judge.file(f"adapter-{n}", data), Module(data))
                   for n, data in enumerate(data for linker in linkers() for data in modules_inside(read(linker)))]
        for _, path, module in carried:
            judge.judge(path, module, None, 40)
        for path in given.mains:
            module = Module(read(path))
            for adapters in None, *([it] for it in carried):
                judge.judge(str(path), module, adapters, 12)
        for case in range(given.cases):
            made = [(name, *adapter_of(judge.chance)) for name in ADAPTERS[:judge.chance.randint(1, 2)]]
            data = main_of(judge.chance, [(name, exports) for name, _, exports in made])
            adapters = [(name, judge.file(f"{case}-{name}", wasm), Module(wasm)) for name, wasm, _ in made]
            path, module = judge.file(f"{case}-main", data), Module(data)
            judge.judge(path, module, None, 2)
            judge.judge(path, module, adapters, 4)
    count = f"{judge.paths} paths, and {judge.marks} marks of {judge.items} items, {len(judge.wrong)} differ"
    modules = f"{len(carried)} adapters, {len(given.mains)} main modules, {given.cases} random components"
    print("\n".join([*judge.wrong, f"{modules}, {judge.asked} questions: {count}"]))
    return 1 if judge.wrong or not judge.paths or not judge.marks else 0


if __name__ == "__main__":
    sys.exit(main())
