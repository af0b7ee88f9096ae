#!/usr/bin/env python3
"""Prints the definitions that the contract of `ComponentWorld::new` rests on, as the tables of docs/TRUST.md.

    checks/trust.py            prints the tables
    checks/trust.py --write    writes them into docs/TRUST.md
    checks/trust.py --check    compares them with those of docs/TRUST.md; status 1 where they differ

It begins with the names in the clauses of `new`, and follows what each definition cites: names of its own file, and
those that its file takes from another one by `use`. A clause sees of a value what the view in the `impl Model` of its
type says; so the view is followed of each type whose value is of a definition that is reached. Definitions of the kit
are listed, and not followed. A file counts with the lines of the definitions that are reached, and of the comments before
them; not with its other lines. Files stand after those that they cite. What is cited of the types of the sources is
listed by its source files.
"""
import argparse
import functools
import pathlib
import re
import sys
import textwrap

sys.path.append(str(pathlib.Path(__file__).resolve().parent.parent / "tools"))
from repository import TOP, crates_below, parts_of, put_between, used_by_crates

CRATES = TOP / "crates"
PAGE = TOP / "docs" / "TRUST.md"
BEGIN, END = "<!-- trust.py: begin -->\n", "<!-- trust.py: end -->\n"
SOURCE, HEAD = CRATES / "wc_world" / "src" / "world.rt", "    pub fn new<"
USE = re.compile(r"(?:ghost |pub )?use Rattle\.(\w+)\.specs\.([\w.]*\w)(?:\.\{(.*)\})?(?: as (\w+))?")
DECLARED = re.compile(r"(?:(?:abbrev|unfoldable|pub|data|record|infixl|infixr|infix) )*([^\s:({]+)")


def citations(piece):
    """What a `use` brings into scope: each name with its crate, file and own name, or another name of a whole file."""
    use = USE.match(" ".join(line.strip() for line in piece if not line.startswith("--")))
    if not use:
        return {}, {}
    crate, file, names, other = use.groups()
    if names is None:
        return {}, {other or file.rsplit(".", 1)[-1]: (crate, file)}
    scope = {}
    for name in names.split(","):
        own, _, known = name.strip().partition(" as ")
        scope[known or own] = (crate, file, own)
    return scope, {}


def title_of(text):
    """What a file is about, of the comment at its head: the first sentence up to a colon, and the sections of the standard."""
    text = re.split(r"\.\s+(?=[A-Z])", text)[0].rstrip(".").replace("WebAssembly core specification, ", "core ")
    text = re.sub(r'(\d) "[^"]*"', r"\1", text)
    title, _, rest = text.partition(": ")
    section = re.search(r" \((core|component model)[^)]*\)", rest)
    return (title + (section[0] if section else "")).replace("|", "\\|")


class Specs:
    """A file of specs: the lines of each definition, and what the names in it mean."""

    def __init__(self, crate, file):
        self.lines, self.scope, self.owners, self.modules = {}, {}, {}, {}
        text = (CRATES / crate / "specs" / (file.replace(".", "/") + ".antt")).read_text()
        head = [line.removeprefix("-- ") for line in re.match(r"(?:--.*\n)*", text).group().splitlines()]
        self.subject = title_of(" ".join(head))
        last = None
        for piece in (comments + lines for comments, lines in parts_of(text)):
            first = next(line for line in piece if not line.startswith("--"))
            if re.match(r"(pub )?use ", first):
                scope, modules = citations(piece)
                self.scope.update(scope)
                self.modules.update(modules)
                continue
            # An equation of an operator begins with an argument, and belongs to what stands before it.
            last = DECLARED.match(first).group(1) if DECLARED.match(first) else last
            self.lines.setdefault(last, []).extend(piece)
            self.own_parts(first, piece, last)
        self.scope.update({name: (crate, file, name) for name in self.lines})
        self.scope.update({part: (crate, file, owner) for part, owner in self.owners.items()})

    def own_parts(self, first, piece, name):
        """The constructors of a `data`, which mean what it means."""
        if re.match(r"(pub )?data ", first):
            for line in piece:
                part = re.match(r"  (\S+) :", line)
                if part:
                    self.owners[part.group(1)] = name


class Walk:
    def __init__(self, is_left_out=lambda crate, file, name: False):
        self.specs, self.reached, self.order, self.declared = {}, set(), [], set()
        self.kit, self.views = set(), set()
        self.is_left_out = is_left_out

    def file(self, crate, file):
        key = crate, file
        if key not in self.specs:
            there = (CRATES / crate / "specs" / (file.replace(".", "/") + ".antt")).exists()
            self.specs[key] = Specs(crate, file) if there else None
        return self.specs[key]

    def lines(self):
        return sum(len(self.specs[crate, file].lines[name]) for crate, file, name in self.order)

    def visit(self, crate, file, name):
        if self.is_left_out(crate, file, name):
            return
        if not (CRATES / crate).exists():
            self.kit.add((crate, file, name))
            return
        if file.startswith("declared."):
            self.declared.add((crate, file.split(".")[1]))
            return
        specs = self.file(crate, file)
        if specs is None:
            return
        name = specs.owners.get(name, name)
        if name not in specs.lines or (crate, file, name) in self.reached:
            return
        self.reached.add((crate, file, name))
        for target in self.cited(specs, name):
            self.visit(*target)
        self.order.append((crate, file, name))

    def visit_views(self, models):
        """Follows the view of each model whose value is of a definition that is reached, until no other one is."""
        left = list(models)
        while ready := [it for it in left if self.reached & {self.owner(target) for target in it.value}]:
            for it in ready:
                self.views.add((it.crate, it.source))
                for target in it.view:
                    self.visit(*target)
            left = [it for it in left if it not in ready]

    def owner(self, target):
        crate, file, name = target
        specs = self.file(crate, file) if (CRATES / crate).exists() else None
        return crate, file, specs.owners.get(name, name) if specs else name

    @staticmethod
    def cited(specs, name):
        text = "\n".join(re.sub(r"--.*", "", line) for line in specs.lines[name])
        words = set(re.findall(r"[^\s(){}\[\],;.]+", text))
        for known, target in specs.scope.items():
            parts = [part for part in known.split("◌") if part]
            if parts and all(part in words for part in parts):
                yield target
        for module, target in specs.modules.items():
            for member in re.findall(r"(?<![\w.])" + re.escape(module) + r"\.(\w+)", text):
                yield (*target, member)


def headline():
    """The names in the clauses of `new`, as its file knows them."""
    text = SOURCE.read_text()
    scope = {}
    for line in text.splitlines():
        if line.startswith("ghost use "):
            scope.update(citations([line])[0])
    begin = text.index(HEAD)
    clauses = re.sub(r"//.*", "", text[begin:text.index("\n    {\n", begin)])
    words = set(re.findall(r"[^\s(){}\[\],;.]+", clauses))
    return [target for name, target in scope.items() if name in words]


def traits():
    """The traits of the type parameters of `new`, by the source files of its crate that have them."""
    text = SOURCE.read_text()
    begin = text.index(HEAD) + len(HEAD)
    names = re.findall(r"\w+: (\w+)", text[begin:text.index(">", begin)])
    sources = SOURCE.parent
    return {str(path.relative_to(sources)): name for name in names for path in sorted(sources.rglob("*.rt"))
            if re.search(rf"^pub trait {name}\b", path.read_text(), re.MULTILINE)}


class View:
    """An `impl Model`: what its value is of, and what its view cites."""

    def __init__(self, crate, source, before, block):
        self.crate, self.source = crate, source
        scope = {}
        for line in (before + block).splitlines():
            if line.strip().startswith("ghost use "):
                scope.update(citations([line.strip()])[0])
        self.value = self.cited(scope, r"ghost Value = \{(.*?)\};", block)
        self.view = self.cited(scope, r"ghost view = \{(.*?)\};", block)

    @staticmethod
    def cited(scope, pattern, block):
        found = re.search(pattern, block, re.DOTALL)
        words = set(re.findall(r"[^\s(){}\[\],;.]+", found.group(1) if found else ""))
        return [target for name, target in scope.items() if name in words]


@functools.cache
def models():
    """The models of the crates that the headline's crate stands on, and its own."""
    found = []
    for crate in crates_below("wc_world"):
        sources = CRATES / crate / "src"
        for path in sorted(sources.rglob("*.rt")):
            text = path.read_text()
            for block in re.finditer(r"^impl.* Model for .*?^}", text, re.DOTALL | re.MULTILINE):
                heads = "\n".join(line for line in text.splitlines() if line.startswith("ghost use "))
                found.append(View(crate, str(path.relative_to(sources)), heads + "\n", block.group()))
    return found


# What a first reading leaves out: words for it, and whether a definition is of it.
CUTS = {
    "the writer's text": lambda crate, file, name: crate == "wc_write",
    "the reading functions": lambda crate, file, name: crate == "wc_read" and file.split(".")[0] == "Reading",
    "how names are read": lambda crate, file, name: crate == "wc_names" and name in ("IsRule", "IsExportRule"),
    "names and producers": lambda crate, file, name: crate == "wc_read" and file in ("Names", "Producers"),
    "the added code": lambda crate, file, name: (crate, file) == ("wc_gc", "AddedCode"),
}


def first_reading():
    """The lines that each cut by itself leaves out, and how many all of them leave."""
    whole = walked().lines()
    cuts = {words: whole - walked(cut).lines() for words, cut in CUTS.items()}
    return cuts, walked(lambda *it: any(cut(*it) for cut in CUTS.values())).lines()


def walked(*left_out):
    walk = Walk(*left_out)
    for target in headline():
        walk.visit(*target)
    walk.visit_views(models())
    return walk


def in_order(walk):
    """The files of the definitions, each after those that its definitions cite."""
    cites = {}
    for crate, file, name in walk.order:
        targets = {target[:2] for target in walk.cited(walk.specs[crate, file], name)}
        cites.setdefault((crate, file), set()).update(targets - {(crate, file)})
    placed = {}

    def place(key):
        if key in cites and key not in placed:
            placed[key] = None
            for target in sorted(cites[key]):
                place(target)
            placed[key] = placed.pop(key)

    for key in cites:
        place(key)
    return list(placed)


def tables(walk):
    counts = {}
    for crate, file, name in walk.order:
        counts[crate, file] = counts.get((crate, file), 0) + len(walk.specs[crate, file].lines[name])
    cuts, left = first_reading()
    *firsts, last = [f"{words} ({lines})" for words, lines in cuts.items()]
    parts = [f"{sum(counts.values()):,} lines in {len(counts)} files. A first reading has {left:,}, without "
             f"{', '.join(firsts)} and {last}.\n"]
    for crate in used_by_crates():
        own = {file: counts[crate, file] for at, file in in_order(walk) if at == crate}
        if not own:
            continue
        parts.append(f"\n## `{crate}`: {sum(own.values()):,} lines\n\n| File of `specs/` | Lines | Subject |\n|---|---|---|\n")
        for file, lines in own.items():
            parts.append(f"| `{file.replace('.', '/')}` | {lines} | {walk.specs[crate, file].subject} |\n")
        types = sorted(file for at, file in walk.declared if at == crate)
        if types:
            parts.append("\nTypes of the sources: " + ", ".join(f"`{file}.rt`" for file in types) + ".\n")
        if crate == SOURCE.parent.parent.name:
            parts.append("\nTraits of the type parameters of `new`: " + ", ".join(f"`{name}` in `{file}`" for file, name in traits().items()) + ".\n")
        views = sorted(file for at, file in walk.views if at == crate)
        if views:
            parts.append("\nViews of its types: " + ", ".join(f"`{file}`" for file in views) + ".\n")
    parts.append("\n" + kit(walk))
    return "".join(parts)


def kit(walk):
    """The definitions of the kit that are cited, by their crates."""
    by_crate = {}
    for crate, _, name in walk.kit:
        by_crate.setdefault(crate, set()).add(name.replace("◌", "_"))
    ordered = sorted(by_crate, key=lambda it: -len(by_crate[it]))
    counts = ", ".join(f"{len(by_crate[it])} of `{it}`" for it in ordered)
    lists = "\n\n".join("\n".join(textwrap.wrap(f"{it}: " + " ".join(sorted(by_crate[it])), 118)) for it in ordered)
    return f"## The kit: {counts}\n\n```\n{lists}\n```\n"


def main():
    parser = argparse.ArgumentParser(description=__doc__, formatter_class=argparse.RawDescriptionHelpFormatter)
    how = parser.add_mutually_exclusive_group()
    for name in "write", "check":
        how.add_argument("--" + name, action="store_true")
    given = parser.parse_args()
    text = tables(walked())
    page, old = put_between(PAGE.read_text(), BEGIN, END, text)
    if given.write:
        PAGE.write_text(page)
    elif given.check and old != text:
        print("docs/TRUST.md has other tables: checks/trust.py --write")
        return 1
    elif not given.check:
        print(text, end="")
    return 0


if __name__ == "__main__":
    sys.exit(main())
