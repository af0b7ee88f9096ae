#!/usr/bin/env python3
"""Checks that each function of the product has a clause, or a reason why not, and the figures in docs/GUARANTEES.md.

    checks/clauses.py [--write] [--list]

A function has a clause if its head has a `requires` or an `ensures`, if the trait that declares it has one there, or if
its `impl` gives the contract of a trait of the kit (`ghost NAME = { .. }`). Each other function is in REASONS, with what
is known of it all the same. The figures are the functions, clauses, definitions and edits of the sources; --write puts
them into the page. A line is printed for each function without clause and reason, and for each reason that is of no use;
the status is then 1. --list prints the functions that have a reason.
"""
import argparse
import functools
import hashlib
import pathlib
import re
import sys

sys.path += [str(pathlib.Path(__file__).resolve().parent.parent / part) for part in ("checks", "edits", "tools")]
from batches import DEFINED, Edit, Sources, known
from repository import TOP, edits_of, exports_of_crate, functions_of, lines_of_crates, product_crates, put_between, read, texts_of, used_by_crates
from trust import CRATES, Walk, citations

PAGE = TOP / "docs" / "GUARANTEES.md"
BEGIN, END = "<!-- clauses.py: begin -->\n", "<!-- clauses.py: end -->\n"
BLOCK = re.compile(r"^(?:unsafe )?(?:impl\b|(?:pub(?:\([^)]*\))? )?(?:unsafe )?trait\b)", re.M)
CLAUSE = re.compile(r"\b(?:requires|ensures)\b")

# why functions have no clause
REASONS = {
    "prints a value for developers; no text is promised":
        "wc_maps/ordered_map::OrderedMapDebug::fmt wc_maps/seed::SeedDebug::fmt wc_read/types::FuncTypeDebug::fmt",
    "part of a text that `thiserror` makes; the text of `FaultText` is proved": "wc_json/fault::separator",
    "tested only: what the system answers is not described in `specs/`":
        "wc_maps/seed::Seed::drawn wc_program/system::create_beside wc_program/system::drawn_number wc_program/system::path_beside "
        "wc_program/system::write_and_close wc_program/system::system_arguments wc_program/system::system_shell",
    "calls `run`, whose clauses say what the program does": "wctrim/main wcwhy/main wcplan/main",
    "chooses a seed or an allocator, on which no result depends":
        "wc_resolve/live::LiveTypes::allocator wc_resolve/validate::package_names::seed_of wc_import_paths/asked::Asked::seed",
    "chooses what is kept, or how much room is taken, for speed: the callers' clauses hold whatever it returns":
        "wc_read/bodies::room_for wc_resolve/futures::has_any wc_gc/body_cuts::BodyCut::new wc_resolve/long_functions::push_long_place "
        "wc_resolve/long_functions::push_interface_places wc_resolve/long_functions::item_place wc_resolve/long_functions::push_item_places "
        "wc_resolve/long_functions::push_places_of_interfaces wc_resolve/long_functions::push_places_of_worlds "
        "wc_resolve/long_functions::long_places wc_resolve/long_functions::rank wc_resolve/long_functions::is_before "
        "wc_resolve/long_functions::functions_before wc_world/marks::joined wc_world/marks::KnownTo::joined wc_world/settled::joined_type "
        "wc_world/settled::joined_payload wc_world/settled::joined_items wc_world/settled::joined_fields wc_world/settled::joined_cases "
        "wc_world/settled::joined_kind",
    "finds the byte of a fault, of which `stop_in` promises only that it is in the section; rows test which byte it is":
        "wc_read/stops::Sought::is_of_order wc_read/stops::fault_in wc_read/stops::fault_of_items wc_read/stops::fault_of_item wc_read/stops::left "
        "wc_read/stops::fault_at",
}


def without_comments(text):
    return re.sub(r"//.*", "", text)


def sum_of(texts):
    return hashlib.sha256("\0".join(texts).encode()).hexdigest()[:8]


def block_of(text, function):
    """The lines of the `impl` or the trait that a method is in, up to the method."""
    begins = [it.start() for it in BLOCK.finditer(text, 0, function.begins)] if function.owner else []
    return text[begins[-1] : function.begins] if begins else ""


@functools.lru_cache(maxsize=None)
def citations_in(text, indent):
    """What the `ghost use` lines of a text bring into scope, of its first column or of a block."""
    scope = {}
    for line in re.findall(rf"^{indent}ghost use [^;]*;", text, re.M):
        scope.update(citations([line.strip()])[0])
    return scope


class House:
    """All crates with their edits: the clauses of their functions, and the definitions that clauses lead to."""

    def __init__(self):
        self.sources = {crate: Sources(texts_of(crate)) for crate in used_by_crates()}
        heads = [(name, *it, head) for name, its in self.sources.items() for it, head in its.heads_of_traits.items()]
        self.declared = {(trait, function): (crate, *head) for crate, trait, function, head in heads}
        self.specs, self.sums = {}, {}

    @functools.cached_property
    def edits(self):
        """Each edit with its crate, and whether the gate tries it."""
        found = []
        for crate, sources in self.sources.items():
            for name, it, *is_gate in edits_of(crate):
                text = it if isinstance(it, str) else it.read_text(encoding="utf-8")
                found.append((crate, Edit(name, text, sources), is_gate[0] if is_gate else "must-fail" in it.parts))
        return found

    def functions(self, crate):
        for path, text in self.sources[crate].texts.items():
            if path.startswith("src/"):
                yield from functions_of(path, text)

    def is_empty(self, crate, function):
        """Whether the body is empty, as the body of a law is."""
        body = self.sources[crate].texts[function.file][function.opens : function.ends]
        return function.has_body and not re.sub(r"[\s{}]", "", without_comments(body))

    def exported(self, crate):
        """The functions that a crate exports: its traits' and its types' public ones, and those of its public modules."""
        names, root = exports_of_crate(crate), CRATES / crate / "src" / "lib.rt"
        modules = re.findall(r"^pub mod (\w+);", read(root), re.M) if root.is_file() else []
        is_static = any(name == crate and "staticlib" in kinds for name, kinds, _ in lines_of_crates())
        for it in self.functions(crate):
            is_public = it.text.lstrip().startswith("pub ")
            is_free = it.name in names or it.module.split("::")[0] in modules or is_static
            if it.in_trait.startswith("pub") and it.owner in names or is_public and not it.trait and (it.owner in names or not it.owner and is_free):
                yield it

    def heads(self, crate, function):
        """The heads with a function's clauses, each with its crate and file: its own, and that of its trait's function."""
        found = [(crate, function.file, function.text)]
        trait = self.declared.get((function.trait, function.name)) if function.trait else None
        return found + [trait] if trait else found

    def gives(self, crate, function):
        """The contract of its trait that an `impl` gives, as text."""
        block = block_of(self.sources[crate].texts[function.file], function)
        return " ".join(re.findall(r"^ +ghost \w+ = (\{.*?\});", block, re.M | re.S)) if function.trait else ""

    def has_clause(self, crate, function):
        is_said = any(CLAUSE.search(without_comments(head)) for _, _, head in self.heads(crate, function))
        return is_said or bool(self.gives(crate, function))

    def cited(self, crate, function):
        """The definitions that a function's clauses cite."""
        own = crate, function.file, function.text
        for at, file, head in self.heads(crate, function):
            text = self.sources[at].texts[file]
            mine = function if (at, file, head) == own else next(it for it in functions_of(file, text) if it.text == head)
            scope = {**citations_in(text, ""), **citations_in(block_of(text, mine), " +")}
            words = set(re.findall(r"[^\s(){}\[\],;.]+", without_comments(head) + " " + self.gives(at, mine)))
            for name, target in scope.items():
                parts = [part for part in name.split("◌") if part]
                if parts and words.issuperset(parts):
                    yield target

    def walk(self):
        walk = Walk()
        walk.specs = self.specs
        return walk

    def led_to(self, targets):
        """The definitions that these lead to, with them."""
        walk = self.walk()
        for target in targets:
            walk.visit(*target)
        return walk.reached

    def sum_of(self, target):
        """A sum of a definition and of all that it leads to; of another name the name."""
        crate, file, name = target = self.walk().owner(target)
        specs = self.walk().file(crate, file) if (CRATES / crate).exists() and not file.startswith("declared.") else None
        if specs is None or name not in specs.lines:
            return name
        if target not in self.sums:
            self.sums[target] = ""
            lines = [line for line in specs.lines[name] if not line.startswith("--")]
            self.sums[target] = sum_of(lines + sorted(self.sum_of(it) for it in self.walk().cited(specs, name)))
        return self.sums[target]

    def sum_of_edit(self, crate, edit):
        """A sum of all definitions to which an edit leads, those of the crates below too."""
        cited = [target for it in edit.functions + edit.heads for target in self.cited(crate, it)]
        return sum_of(sorted({self.sum_of(it) for it in [*cited, *self.changed(crate, edit)]}))

    def changed(self, crate, edit):
        """The definitions that an edit changes."""
        return [self.definition(crate, file, place) for file, place in edit.items if file.startswith("specs/")]

    @functools.cached_property
    def behind_exports(self):
        """The definitions that the clauses of exported functions lead to."""
        return self.led_to(target for crate in product_crates() for it in self.exported(crate) for target in self.cited(crate, it))

    def definition(self, crate, file, place):
        """The definition that is at a place of a file of `specs/`."""
        lines = [line for line in self.sources[crate].item(file, place).split("\n") if line and not line.startswith("--")]
        return (crate, file[len("specs/") : -len(".antt")].replace("/", "."), DEFINED.match(lines[0])[1])


def reasons():
    """Why functions have no clause, by their crates and paths."""
    return {tuple(it.split("/", 1)): why for why, names in REASONS.items() for it in names.split()}


def figures(house):
    """The table of figures: functions and clauses of the product, definitions, edits, and what is to be read."""
    crates = product_crates()
    functions = [(crate, it) for crate in crates for it in house.functions(crate) if it.has_body]
    exported = [(crate, it) for crate in crates for it in house.exported(crate)]
    count = lambda its: sum(len(CLAUSE.findall(without_comments(it.text))) for _, it in its)
    kinds = known()
    found = ["gate" if is_gate else kinds.get(it.key, "untried") for _, it, is_gate in house.edits]
    refused = ", ".join(f"{found.count(it):,} {words}" for it, words in (
        ("clause", "at a clause"), ("loop", "at a loop"), ("lemma", "in a lemma"), ("step", "at a step"), ("gate", "by the gate")))
    whole, first = re.search(r"^([\d,]+) lines in .* A first reading has ([\d,]*\d)", read("docs", "TRUST.md"), re.M).groups()
    untried = re.match(r"at most (\d+) functions, (\d+) definitions", read("checks", "untried.txt"))
    rows = [
        ("Functions of the product", f"{len(functions):,} in {len(crates)} crates; {len(reasons())} have no clause"),
        ("Their clauses", f"{count(functions):,}"),
        ("Exported functions, with those that traits declare", f"{len(exported):,}, with {count(exported):,} clauses"),
        ("Definitions to which their clauses lead", f"{len(house.behind_exports):,}"),
        ("Edits (mutants)", f"{len(found):,}: refused {refused}; {found.count('untried')} not tried as they are"),
        ("Exported functions that no edit tries", untried[1]),
        ("Definitions behind their clauses to which no edit leads", untried[2]),
        ("Lines of definitions behind the main contract", f"{whole}; in a first reading {first}"),
    ]
    return "| | |\n|---|---|\n" + "".join(f"| {what} | {number} |\n" for what, number in rows)


def main():
    parser = argparse.ArgumentParser(description=__doc__, formatter_class=argparse.RawDescriptionHelpFormatter)
    parser.add_argument("--write", action="store_true")
    parser.add_argument("--list", action="store_true")
    given = parser.parse_args()
    house, known_reasons = House(), reasons()
    without = [(crate, it.path()) for crate in product_crates() for it in house.functions(crate) if it.has_body and not house.has_clause(crate, it)]
    wrong = [f"{crate}/{path} has no clause" for crate, path in without if (crate, path) not in known_reasons]
    wrong += [f"{crate}/{path} has a reason of no use" for crate, path in known_reasons if (crate, path) not in without]
    table = figures(house)
    page, old = put_between(read(PAGE), BEGIN, END, table)
    if given.write:
        PAGE.write_text(page, encoding="utf-8")
    elif table != old:
        wrong.append("docs/GUARANTEES.md has other figures: run checks/clauses.py --write")
    for crate, path in without if given.list else []:
        print(f"{crate}/{path}: {known_reasons.get((crate, path))}")
    print("\n".join([*wrong, f"{len(without)} functions without clause, {len(wrong)} wrong"]))
    return 1 if wrong else 0


if __name__ == "__main__":
    sys.exit(main())
