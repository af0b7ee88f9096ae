#!/usr/bin/env python3
"""Checks that edits try exported functions, and the definitions behind their clauses.

    checks/untried.py [--write]

An edit tries a function if it turns its body or its head; a function that a trait declares is tried by an edit of an
`impl` of it, and a law, which returns and changes nothing, by an edit of a definition that its clauses lead to. An edit
leads to the definitions that the clauses of the function which it turns lead to, or to the definition that it changes, and
those that this leads to. A wrong definition to which no edit leads could make clauses empty, and no edit would show it.

checks/untried.txt lists the exported functions that no edit tries, and the definitions behind exported clauses to which no
edit leads. Its first line says how many it may have of each. It may only become shorter: --write makes the list, and lowers
these numbers. A line is printed for each name that is missing in the list, or of no use there, and where the list has more
than it may have; the status is then 1.
"""
import argparse
import pathlib
import re
import sys

sys.path.append(str(pathlib.Path(__file__).resolve().parent))
from clauses import House
from repository import TOP, product_crates, read

LIST = TOP / "checks" / "untried.txt"
HEAD = "at most %d functions, %d definitions\n"


def is_law(function):
    """Whether a function is a law: it returns nothing, and changes nothing."""
    return function.has_body and "->" not in function.text and "&mut " not in function.text


def untried_functions(house):
    """The exported functions that no edit tries, as crate, file and name."""
    turned = {(crate, it.key) for crate, edit, _ in house.edits for it in edit.functions + edit.heads}
    of_impls = {(it.trait, it.name) for _, edit, _ in house.edits for it in edit.functions + edit.heads}
    changed = {it for crate, edit, _ in house.edits for it in house.changed(crate, edit)}
    for crate in product_crates():
        for it in house.exported(crate):
            is_tried = (crate, it.key) in turned or bool(it.in_trait) and (it.owner, it.name) in of_impls
            if not is_tried and not (is_law(it) and house.led_to(house.cited(crate, it)) & changed):
                yield crate, it.file, "::".join(part for part in (it.owner, it.name) if part)


def untried_definitions(house):
    """The definitions behind exported clauses to which no edit leads, as crate, file and name."""
    turned = {(crate, it.key): it for crate, edit, _ in house.edits for it in edit.functions + edit.heads}
    cited = [target for (crate, _), it in turned.items() for target in house.cited(crate, it)]
    changed = [it for crate, edit, _ in house.edits for it in house.changed(crate, edit)]
    for crate, file, name in house.behind_exports - house.led_to(cited + changed):
        yield crate, "specs/" + file.replace(".", "/") + ".antt", name


def lines_of(its):
    """A line for each file, with its names in order."""
    files = {}
    for crate, file, name in its:
        files.setdefault(f"{crate}/{file}", set()).add(name)
    return [f"{file}: {' '.join(sorted(names))}\n" for file, names in sorted(files.items())]


def names_in(lines):
    return {f"{file} {name}" for file, names in (it.split(": ") for it in lines) for name in names.split()}


def main():
    parser = argparse.ArgumentParser(description=__doc__, formatter_class=argparse.RawDescriptionHelpFormatter)
    parser.add_argument("--write", action="store_true")
    given = parser.parse_args()
    house = House()
    functions, definitions = lines_of(untried_functions(house)), lines_of(untried_definitions(house))
    head, *listed = read(LIST).splitlines(keepends=True)
    counts = [len(names_in(functions)), len(names_in(definitions))]
    most = [int(it) for it in re.findall(r"\d+", head)]
    if given.write:
        listed, most = functions + definitions, [min(it) for it in zip(most, counts)]
        LIST.write_text(HEAD % tuple(most) + "".join(listed), encoding="utf-8")
    wanted, there = names_in(functions + definitions), names_in(listed)
    wrong = [f"{it}: no edit tries it" for it in sorted(wanted - there)] + [f"{it}: in the list, of no use" for it in sorted(there - wanted)]
    limits = zip(("functions", "definitions"), counts, most)
    wrong += [f"more {what} than the list may have: {count} of {limit}" for what, count, limit in limits if count > limit]
    wrong += ["the list may have fewer: run checks/untried.py --write"] if any(count < limit for count, limit in zip(counts, most)) else []
    print("\n".join([*wrong, f"{counts[0]} functions, {counts[1]} definitions, {len(wrong)} wrong"]))
    return 1 if wrong else 0


if __name__ == "__main__":
    sys.exit(main())
