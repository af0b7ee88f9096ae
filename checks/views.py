#!/usr/bin/env python3
"""Checks that the views of values, by which clauses speak of them, keep apart what differs.

    checks/views.py

Followed are the views of each `impl Model` from the first crate up to wc_world, as checks/trust.py follows them. An
equation of a view turns a variant, or a struct, into a value of `specs/`. Compared are the equations:

- each name that the left side binds occurs in the right side;
- no two right sides of one view can be the same value: where they differ in a constructor, or in a constant, they can't;
- a record made of a struct cites each field that the struct has in the sources; of a field that it does not cite as a whole,
  each field of that field's struct, and so on;
- names agree: the words in the name of a variant, or of a record's field, occur in what it is made of, more of them than
  where it changed places with another variant or field.

Not seen is what a function does to a part that it is given whole.

A view applied to a part is one to one where its own equations are; so are texts by their bytes, lists and maps item by
item. What a view leaves out has to stand in LEFT_OUT, and a view that joins two variants in JOINED, with the
reason. A line is printed for each that is otherwise, and
at last how many views and equations there are. The status is 1 where one is otherwise.
"""
import pathlib
import re
import sys

sys.path += [str(pathlib.Path(__file__).resolve().parent)]
from trust import CRATES, Walk, models

TOKEN = re.compile(r"[^\s(){};,=]+|[(){};,=]")
EQUATION = re.compile(r"(\w+) (.*?)\s=\s(.*)", re.DOTALL)
STRUCT = re.compile(r"^(?:pub(?:\(crate\))? )?struct (\w+)[^{;(]*\{(.*?)^\}", re.MULTILINE | re.DOTALL)
WORD = re.compile(r"[A-Z]?[a-z]+")

# The head of a record and of its fields, as of a pair.
FIELD = "record"
# what passes on what its argument tells, and what is a value by itself
PASSING, CONSTANTS = ("_view", "_entry", "_value", "map", "bytes", "indices", "parts_of"), {"true", "false", FIELD}

# Views of which two equations may give one value, and why.
JOINED = {"types_value": "a type of few parameters and results is the same type in the other form"}

# What a view leaves out, and why.
LEFT_OUT = {
    ("index_texts", "first"): "a table that is made of the entries, which the view has",
    ("index_texts", "index"): "a table that is made of the entries, which the view has",
}

# Names that agree no more than where they changed places, and why.
UNLIKE = {
    ("rename_in", "module_name", "original"): "parts of a text, cut at the positions where the parts begin",
    ("rename_in", "module_name", "name"): "parts of a text, cut at the positions where the parts begin",
    ("names_view", "syntax", "resolve"): "arguments of different types",
    ("types_value", "Long", "Shared"): "values of different types",
}


def side(text):
    """The words of a side, as lists of lists by its brackets; each field of a record is a list of its own."""
    stack = [[]]
    for word in TOKEN.findall(text):
        if word in "({":
            stack.append([])
        elif word in ")}":
            last = stack.pop()
            stack[-1].append(parted(last) if ";" in last or "=" in last else last[0] if len(last) == 1 else last)
        elif word != ",":
            stack[-1].append(word)
    last = stack[0]
    return last[0] if len(last) == 1 else last


def parted(words):
    """A record's fields: the name of each with its value."""
    fields, last = [], []
    for word in [*words, ";"]:
        if word != ";":
            last.append(word)
        elif last:
            name, _, *value = last
            fields.append([FIELD, name, value[0] if len(value) == 1 else value])
            last = []
    return [FIELD, *fields]


def words_of(tree):
    return {tree} if isinstance(tree, str) else {word for part in tree for word in words_of(part)}


def bound(left):
    """The names that a left side binds: its words in small letters but for those of constructors, which come first."""
    patterns = left if isinstance(left, list) and any(isinstance(it, list) for it in left) else [left]
    names = set()
    for pattern in patterns:
        if isinstance(pattern, list):
            names |= {word for word in pattern[1:] if isinstance(word, str)}
        elif "." not in pattern and pattern[0].islower():
            names.add(pattern)
    return {it for it in names if it != "_"}


def may_agree(one, other, free, constructors):
    """Whether two right sides can be the same value; `free` are the names that their left sides bind."""
    if any(isinstance(it, str) and it.split(".")[0] in free for it in (one, other)):
        return True
    heads = [it if isinstance(it, str) else it[0] if isinstance(it[0], str) else FIELD for it in (one, other)]
    if any(not is_one_to_one(it, constructors) for it in heads):
        return True
    if heads[0] != heads[1] or isinstance(one, str) != isinstance(other, str):
        return any(it.endswith(PASSING) and it not in constructors for it in heads)
    return isinstance(one, str) or len(one) == len(other) and all(may_agree(*it, free, constructors) for it in zip(one[1:], other[1:]))


def is_one_to_one(head, constructors):
    """Whether what is made by it tells what it is made of."""
    return head == FIELD or head in constructors or head.endswith(PASSING) or "." in head or head[0].isupper() or head in CONSTANTS


def unfolded(tree, constants):
    if isinstance(tree, str):
        return constants.get(tree, tree)
    return [unfolded(it, constants) for it in tree]


def structs():
    """The fields of each struct of the sources, with their types."""
    found = {}
    for path in sorted(CRATES.glob("*/src/**/*.rt")):
        for name, body in STRUCT.findall(path.read_text(encoding="utf-8")):
            fields = re.findall(r"^    (?:pub(?:\(crate\))? )?(\w+): (.*?),?$", body, re.MULTILINE)
            found.setdefault((path.relative_to(CRATES).parts[0], name), dict(fields))
    return found


def fields_of(declared, crate, name):
    """The fields of a struct of this name, of the crate or of another one; none of another type."""
    return next((fields for (at, it), fields in sorted(declared.items(), key=lambda it: it[0][0] != crate) if it == name), {})


def left_out(declared, crate, of, path, cited):
    """The fields that no cited path begins with or leads into, below a path to a struct."""
    for field, its_type in fields_of(declared, crate, of).items():
        here = f"{path}.{field}"
        inner = re.sub(r"<.*|&(?:'\w+ )?", "", its_type)
        if here not in cited and not any(it.startswith(here + ".") for it in cited):
            yield here.partition(".")[2]
        elif here not in cited and fields_of(declared, crate, inner):
            yield from left_out(declared, crate, inner, here, cited)


def words_in(tree):
    """The words of the names in a side, each without a last `s`."""
    return {it.lower().rstrip("s") for word in words_of(tree) for it in WORD.findall(word)}


def exchanged(pairs):
    """Which two of some names would agree no less with what they are made of, if they changed places."""
    named = [(name, words_in(name.split(".")[-1]), words_in(made)) for name, made in pairs]
    for n, (one, its, made) in enumerate(named):
        for other, others, others_made in named[:n]:
            if len(its & made) + len(others & others_made) <= len(its & others_made) + len(others & made):
                yield other, one


def constructor(left):
    """The constructor of a left side, if it is one."""
    name = left if isinstance(left, str) else left[0] if isinstance(left[0], str) else ""
    return name if name.split(".")[-1][:1].isupper() else ""


def equations(lines):
    text = "\n".join(line for line in lines if not line.startswith("--"))
    head, _, rest = text.partition("\n")
    found = [EQUATION.fullmatch(it.strip()) for it in re.split(r"\n(?=\w)", rest) if it.strip()]
    return head, [(side(it[2]), side(it[3])) for it in found if it]


def constants_of(specs):
    """The abbreviations of a file that take nothing, with what they stand for."""
    found = {}
    for name, lines in specs.lines.items():
        text = "\n".join(line for line in lines if not line.startswith("--"))
        alone = re.search(rf"^{re.escape(name or '')} = (.*)", text, re.MULTILINE) if name else None
        if alone:
            found[name] = side(alone[1])
    return found


def main():
    walk, fields = Walk(), structs()
    for model in models():
        for target in model.view:
            walk.visit(*target)
    constructors = {owner for specs in walk.specs.values() if specs for owner in specs.owners}
    wrong, views, count = [], 0, 0
    for crate, file, name in walk.order:
        specs = walk.specs[crate, file]
        head, its = equations(specs.lines[name])
        if not its or not name[0].islower() or "->" in head:
            continue
        views, count = views + 1, count + len(its)
        constants = constants_of(specs)
        for n, (left, right) in enumerate(its):
            lost = {it for it in bound(left) - {word.split(".")[0] for word in words_of(right)} if (name, it) not in LEFT_OUT}
            wrong += [f"{crate} {name}: {it} is left out" for it in sorted(lost)]
            for other_left, other_right in its[:n]:
                free = bound(left) | bound(other_left)
                agree = may_agree(unfolded(right, constants), unfolded(other_right, constants), free, constructors)
                if agree and name not in JOINED:
                    wrong.append(f"{crate} {name}: {left} and {other_left} may have one value")
        types = [it.strip() for it in head.partition(" : ")[2].split("→")[:-1]]
        for left, right in its:
            arguments = left if isinstance(left, list) and not constructor(left) else [left]
            made_of = [(of, it) for of, it in zip(types, arguments) if isinstance(it, str)] if FIELD in words_of(right) else []
            lost = [it for of, argument in made_of for it in left_out(fields, crate, of, argument, words_of(right))]
            wrong += [f"{crate} {name}: the field {it} is left out" for it in lost if (name, it) not in LEFT_OUT]
            made = [(it[1], it[2:]) for it in right[1][1:]] if right[0] == FIELD else []
            pairs = [it for it in exchanged(made) if (name, *it) not in UNLIKE]
            wrong += [f"{crate} {name}: the fields {one} and {other} may have changed places" for one, other in pairs]
        made = [(constructor(left), unfolded(right, constants)) for left, right in its if constructor(left)]
        pairs = [it for it in exchanged(made) if (name, *it) not in UNLIKE]
        wrong += [f"{crate} {name}: {one} and {other} may have changed places" for one, other in pairs]
    print("\n".join([*wrong, f"{views} views, {count} equations, {len(wrong)} not as wanted"]))
    return 1 if wrong else 0


if __name__ == "__main__":
    sys.exit(main())
