#!/usr/bin/env python3
"""Unfolds exports of modules, before and after they are trimmed.

    checks/unfoldings.py [FILE]

An unfolding is an item without its indices, and below it, one step to the right, the same of each item that it names, in order,
down to a depth; `..` is where the depth ends. The trimmed modules are those of the rows of `trim` in tests/rows. Reading and
unfolding are this script's own; the shapes of operators are those of the rows of `forms`. FILE (default: checks/unfoldings.rows)
has rows of these calls, each with a module:

    unfolding EXPORT DEPTH              of the module
    unfolding_trimmed EXPORT DEPTH      of the answer of the row `trim EXPORT` with the same module, or its fault
    unfolding_edited EXPORT DEPTH       of the module, with the growing realloc for each import of the main module's realloc

Also, each kept export of a row of `trim` has to unfold as before, to the depth 5, unless the module imports the main module's
realloc, or names globals, which trimming edits. Differences are printed, and at last how many rows and exports agree; the status
is 1 if one differs.
"""
import argparse
import pathlib
import sys

from module_bytes import name_at, sections, signed_at, unsigned_at
from row_format import answered_bytes, bytes_of, rows_of

sys.path.append(str(pathlib.Path(__file__).resolve().parent.parent / "tools"))
from repository import TOP, row_files

KINDS = "func", "table", "memory", "global"
VALUES = {0x7F: "i32", 0x7E: "i64", 0x7D: "f32", 0x7C: "f64", 0x7B: "v128", 0x70: "funcref", 0x6F: "externref"}
REALLOCS = ("__main_module__", "cabi_realloc"), ("__main_module__", "canonical_abi_realloc")
FAMILIES = {0xFC: "fc", 0xFD: "fd", 0xFE: "fe"}
# How deep each export that is kept is unfolded.
DEPTH = 5
END = 0x0B


def quoted(text):
    return '"' + text.replace("\\", "\\\\").replace('"', '\\"') + '"'


class Reader:
    """Reads bytes from an index on: types and operators without their indices, and the types and items that they name."""

    def __init__(self, data, forms=None):
        self.data, self.at, self.forms = data, 0, forms

    def byte(self):
        self.at += 1
        return self.data[self.at - 1]

    def number(self):
        value, self.at = unsigned_at(self.data, self.at)
        return value

    def signed(self):
        value, self.at = signed_at(self.data, self.at)
        return value

    def name(self):
        text, self.at = name_at(self.data, self.at)
        return text

    def several(self, item):
        return [item() for _ in range(self.number())]

    def heap_type(self, nullable):
        """A reference to functions, to values of the host, or to functions of a type."""
        index = self.signed()
        if index >= 0:
            return ("ref-null:0" if nullable else "ref:0"), [("type", index)]
        word = {0x70: "func", 0x6F: "extern"}[index & 0x7F]
        return (word + "ref" if nullable else "ref:" + word), []

    def value_type(self):
        byte = self.byte()
        return (VALUES[byte], []) if byte in VALUES else self.heap_type(byte == 0x63)

    def function_type(self):
        self.byte()
        params, results = self.several(self.value_type), self.several(self.value_type)
        words = [word for word, _ in params], [word for word, _ in results]
        return " ".join(["type", *words[0], "->", *words[1]]), [it for _, named in params + results for it in named]

    def bounds(self, flags):
        words = " 64" if flags & 4 else ""
        words += " shared" if flags & 2 else ""
        words += f" min {self.number()}"
        words += f" max {self.number()}" if flags & 1 else ""
        return words + (f" page {self.number()}" if flags & 8 else "")

    def table_type(self):
        word, named = self.value_type()
        return f"table {word}" + self.bounds(self.byte()), named

    def memory_type(self):
        return "memory" + self.bounds(self.byte()), []

    def global_type(self):
        word, named = self.value_type()
        return f"global {word}" + (" mut" if self.byte() else ""), named

    def of_kind(self, kind):
        """What an item is beside its content, and the items that it names."""
        if kind == "func":
            return "func", [("type", self.number())]
        return {"table": self.table_type, "memory": self.memory_type, "global": self.global_type}[kind]()

    def index(self, kind, named):
        number = self.number()
        if kind in (*KINDS, "type"):
            named.append((kind, number))
            return f" {kind}"
        return f" {kind} {number}"

    def address(self, named):
        align = self.number()
        # memories past the first have a flag and an index
        memory = self.number() if align & 0x40 else 0
        named.append(("memory", memory))
        return f" align {align & ~0x40} memory offset {self.number()}"

    def block_type(self, named):
        byte = self.data[self.at]
        if byte == 0x40:
            self.at += 1
            return " block empty"
        if byte in VALUES or byte in (0x63, 0x64):
            word, types = self.value_type()
            named += types
            return " block " + word
        named.append(("type", self.signed()))
        return " block type"

    def immediates(self, form, named):
        """What comes after an operator's code; the items that it names are put to the others."""
        what, *words = form.split()
        if what == "block":
            return self.block_type(named)
        if what == "index":
            return self.index(words[0], named)
        if what == "indices":
            return self.index(words[0], named) + self.index(words[1], named)
        if what == "labels":
            labels, default = self.several(self.number), self.number()
            return " labels" + "".join(f" {it}" for it in labels) + f" default {default}"
        if what == "types":
            types = self.several(self.value_type)
            for _, its in types:
                named += its
            return " types" + "".join(" " + word for word, _ in types)
        if what == "reference":
            word, types = self.heap_type(True)
            named += types
            return " reference " + word
        if what == "address":
            return self.address(named) + (f" lane {self.byte()}" if words else "")
        if what in ("i32", "i64"):
            return f" {what} {self.signed()}"
        if what == "bytes":
            self.at += int(words[0])
            return " bytes " + self.data[self.at - int(words[0]):self.at].hex(" ")
        if what == "lane":
            return f" lane {self.byte()}"
        if what == "zero":
            self.byte()
        return ""

    def operator(self, named):
        code = self.byte()
        family, number = (FAMILIES[code], self.number()) if code in FAMILIES else ("byte", code)
        text = f"{number:02x}" if family == "byte" else f"{family} {number}"
        return "operator " + text + self.immediates(self.forms[family, number], named)

    def operators(self):
        """The lines up to the end of the bytes, and the items that they name."""
        lines, named = [], []
        while self.at < len(self.data):
            lines.append(self.operator(named))
        return lines, named

    def to_end(self):
        """The bytes of a constant expression."""
        begin, last = self.at, None
        while last != "operator 0b":
            last = self.operator([])
        return self.data[begin:self.at]

    def body(self):
        """The lines of a body, and the items that it names."""
        lines, named = [], []
        for _ in range(self.number()):
            count = self.number()
            word, types = self.value_type()
            lines.append(f"locals {count} {word}")
            named += types
        code, others = self.operators()
        return lines + code, named + others


class Module:
    """The items of a module: the first line, the named items and the content of each. `has_names`: it names globals."""

    def __init__(self, data, forms):
        self.forms, self.items, self.exports, self.imports, self.has_names = forms, {kind: [] for kind in ("type", *KINDS)}, [], [], False
        bodies = []
        for ident, content in sections(data):
            reader = Reader(content, forms)
            if ident == 1:
                self.items["type"] = [(line, named, None) for line, named in reader.several(reader.function_type)]
            elif ident == 2:
                reader.several(lambda at=reader: self.add_import(at))
            elif ident == 3:
                bodies = [("func", [("type", index)]) for index in reader.several(reader.number)]
            elif ident == 4:
                self.items["table"] += [(line + " defined", named, None) for line, named in reader.several(reader.table_type)]
            elif ident == 5:
                self.items["memory"] += [(line + " defined", named, None) for line, named in reader.several(reader.memory_type)]
            elif ident == 6:
                self.items["global"] += reader.several(lambda at=reader: (*at.global_type(), ("init", at.to_end())))
            elif ident == 7:
                self.exports = reader.several(lambda at=reader: (at.name(), (KINDS[at.byte()], at.number())))
            elif ident == 10:
                self.items["func"] += [(*head, ("body", text)) for head, text in zip(bodies, reader.several(lambda at=reader: sized(at)))]
            elif ident == 0:
                self.has_names |= reader.name() == "name" and 7 in dict(sections(content, reader.at))

    def add_import(self, reader):
        module, name, kind = reader.name(), reader.name(), KINDS[reader.byte()]
        line, named = reader.of_kind(kind)
        self.items[kind].append((line, named, ("import", module, name)))
        self.imports.append((module, name))

    def entry(self, item, realloc):
        """The lines of an item without its indices, and the items that it names."""
        kind, index = item
        if index >= len(self.items[kind]):
            return ["none"], []
        line, named, content = self.items[kind][index]
        if not content:
            return [line], named
        if content[0] == "import" and not (realloc and content[1:] in REALLOCS):
            return [f"{line} import {quoted(content[1])} {quoted(content[2])}"], named
        if content[0] == "init":
            lines, others = Reader(content[1], self.forms).operators()
        else:
            lines, others = Reader(realloc if content[0] == "import" else content[1], self.forms).body()
        return [line, *lines], named + others

    def unfolding(self, item, depth, realloc=None, level=0):
        """The lines of an item, and below it of what it names, down to a depth."""
        if level == depth:
            return ["  " * level + ".."]
        lines, named = self.entry(item, realloc)
        found = ["  " * level + line for line in lines]
        for other in named:
            found += self.unfolding(other, depth, realloc, level + 1)
        return found


def sized(reader):
    length = reader.number()
    reader.at += length
    return reader.data[reader.at - length:reader.at]


def forms_of(rows):
    """The shape of each operator, by its family and its number, from the rows of `forms`."""
    forms = {}
    for row in rows:
        if row.call != "forms":
            continue
        family = row.arguments[0]
        for line in row.answer:
            words = line.split()
            words = [word for word in words if word != family] if family != "byte" else words
            last = 2 if words[1:2] == ["to"] else 0
            base = 16 if family == "byte" else 10
            for code in range(int(words[0], base), int(words[last], base) + 1):
                forms[family, code] = " ".join(words[last + 1:])
    return forms


def answer(row, forms, trims, realloc):
    """The answer of a row."""
    name, depth, data = row.arguments[0], int(row.arguments[1]), bytes_of(row.input)
    if row.call == "unfolding_trimmed":
        trimmed = trims[data, (name,)]
        data = answered_bytes(trimmed)
        if data is None:
            return trimmed.answer
    module = Module(data, forms)
    item = dict(module.exports).get(name)
    if item is None:
        return [f"no export {quoted(name)}"]
    return module.unfolding(item, depth, realloc if row.call == "unfolding_edited" else None)


def differing(row, data, forms):
    """How many exports of a row of `trim` agree, and the names of those that differ."""
    before, after = Module(data, forms), Module(answered_bytes(row), forms)
    if before.has_names or any(it in REALLOCS for it in before.imports):
        return 0, []
    wrong = [name for name, item in after.exports
             if before.unfolding(dict(before.exports)[name], DEPTH) != after.unfolding(item, DEPTH)]
    return len(after.exports) - len(wrong), wrong


def main():
    parser = argparse.ArgumentParser(description=__doc__, formatter_class=argparse.RawDescriptionHelpFormatter)
    parser.add_argument("file", nargs="?", type=pathlib.Path, default=TOP / "checks" / "unfoldings.rows", metavar="FILE")
    cases = rows_of(parser.parse_args().file)
    rows = [row for path in row_files() for row in rows_of(path)]
    forms = forms_of(rows)
    trims = {(bytes_of(row.input), tuple(row.arguments)): row for row in rows if row.call == "trim"}
    realloc = next(answered_bytes(row) for row in rows if [row.call, *row.arguments] == ["realloc_via_memory_grow", "16"])
    agreed = kept = failed = 0
    for row in cases:
        found = answer(row, forms, trims, realloc)
        agreed += found == row.answer
        if found != row.answer:
            print("\n".join([f"row {row.name}", *("  wanted " + it for it in row.answer), *("  found " + it for it in found)]))
    for (data, _), row in trims.items():
        if answered_bytes(row) is not None:
            count, wrong = differing(row, data, forms)
            kept, failed = kept + count, failed + len(wrong)
            for name in wrong:
                print(f"row {row.name}: the export {quoted(name)} unfolds otherwise once it is trimmed")
    print(f"{agreed} of {len(cases)} rows agree, and {kept} exports of rows of `trim`")
    return int(agreed != len(cases) or not cases or failed > 0 or not kept)


if __name__ == "__main__":
    sys.exit(main())
