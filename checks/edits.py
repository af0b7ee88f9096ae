#!/usr/bin/env python3
"""Checks that the edits of edits/CRATE.edits and of crates/*/must-fail (mutants) can be applied to the sources, and that
docs/TRIED.md has the table of what refused them. It proves nothing.

    checks/edits.py [--write]

An edit names a file that exists, and each of its old texts occurs once there; it changes something; its name has a hyphen,
and no other edit of its crate has it; edits/CRATE.edits has them in the order of their names. A line is printed for each
edit that is otherwise, and at last their number; the status is then 1. edits/batches.py tries whether the prover refuses
them, and records it in edits/refused.txt, from which --write makes the table.
"""
import argparse
import pathlib
import sys

sys.path += [str(pathlib.Path(__file__).resolve().parent.parent / part) for part in ("tools", "edits")]
from batches import KINDS, Edit, Sources, known
from repository import TOP, edits_of, put_between, read, texts_of, used_by_crates

PAGE = TOP / "docs" / "TRIED.md"
BEGIN, END = "<!-- edits.py: begin -->\n", "<!-- edits.py: end -->\n"
HEAD = "| Crate | Edits | By the gate | At a clause | At a loop | In a lemma | At a step | Not tried as they stand |\n"


def table(edits):
    """The table: how many edits each crate has, how many the gate tries, and what refused the others."""
    kinds, lines, total = known(), [HEAD, "|---" * 8 + "|\n"], [0] * 7
    for crate, its in edits.items():
        found = ["gate" if is_gate else kinds.get(edit.key, "untried") for edit, is_gate in its]
        counts = [len(its), *(found.count(it) for it in ("gate", *KINDS[:4], "untried"))]
        total = [one + other for one, other in zip(total, counts)]
        lines += ["| `%s` | %s |\n" % (crate, " | ".join(str(it or "") for it in counts))] if its else []
    lines += ["| all | %s |\n" % " | ".join(map(str, total))]
    return "".join(lines).replace("|  |", "| |").replace("|  |", "| |")


def wrong_edits(crate, its):
    """A line for each edit of a crate that is not as it has to be."""
    names = [edit.name for edit, is_gate in its if not is_gate]
    if names != sorted(names):
        yield f"edits/{crate}.edits: the edits are not in the order of their names"
    names = [edit.name for edit, _ in its]
    for edit, _ in its:
        why = edit.fault or ("another edit has its name" if names.count(edit.name) > 1 else "")
        why = why or ("" if "-" in edit.name else "its name has no hyphen")
        if why:
            yield f"{crate}/{edit.name}: {why}"


def main():
    parser = argparse.ArgumentParser(description=__doc__, formatter_class=argparse.RawDescriptionHelpFormatter)
    parser.add_argument("--write", action="store_true")
    given = parser.parse_args()
    crates, edits = list(used_by_crates()), {}
    known_files = {f"{crate}.edits" for crate in crates} | {"batches.py", "refused.txt", "__pycache__"}
    wrong = [f"edits/{path.name}: no crate" for path in (TOP / "edits").iterdir() if path.name not in known_files]
    for crate in crates:
        sources = Sources(texts_of(crate))
        edits[crate] = [(Edit(name, text, sources), is_gate) for name, text, is_gate in edits_of(crate)]
        wrong += wrong_edits(crate, edits[crate])
    page, old = put_between(read(PAGE), BEGIN, END, table(edits))
    if given.write:
        PAGE.write_text(page, encoding="utf-8")
    elif table(edits) != old:
        wrong.append("docs/TRIED.md has another table: run checks/edits.py --write")
    for line in wrong:
        print(line)
    print(f"{sum(map(len, edits.values()))} edits, {len(wrong)} wrong")
    return 1 if wrong else 0


if __name__ == "__main__":
    sys.exit(main())
