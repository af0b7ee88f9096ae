"""Modules that lines `do ..` describe, an import or an export each (docs/ROWS.md, "Calls on validated modules")."""
import re

from module_bytes import HEADER, name, number, section, vector
from row_format import BadRow
from words import Words

PLAIN = {"i32": 0x7F, "i64": 0x7E, "f32": 0x7D, "f64": 0x7C, "v128": 0x7B, "funcref": 0x70, "externref": 0x6F}
REFERENCES = {"ref:func": b"\x64\x70", "ref:extern": b"\x64\x6f"}
REFERENCE = re.compile(r"ref(-null)?:(\d+)")
# the initialiser of a global of each type: zero, or null
INITIALISERS = {b"\x7f": b"\x41\0\x0b", b"\x7e": b"\x42\0\x0b", b"\x70": b"\xd0\x70\x0b", b"\x6f": b"\xd0\x6f\x0b"}
KINDS = "func", "table", "memory", "global"
UNREACHABLE = b"\3\0\0\x0b"


def value_type(words):
    """Takes a value type, where one is next."""
    word = words.peek() or ""
    found = REFERENCE.fullmatch(word)
    if word in PLAIN:
        made = bytes([PLAIN[word]])
    elif word in REFERENCES:
        made = REFERENCES[word]
    elif found:
        made = (b"\x63" if found[1] else b"\x64") + number(int(found[2]))
    else:
        return None
    words.name()
    return made


def value_types(words):
    """Value types, up to a word that is none."""
    return list(iter(lambda: value_type(words), None))


def function_type(words):
    """`PARAM.. -> RESULT..`, as a type section has it."""
    params = value_types(words)
    words.expect("->")
    return b"\x60" + vector(params) + vector(value_types(words))


def limits(words, has_page):
    """`[64] [shared] min N [max N] [page N]`, as limits."""
    flags = 4 * bool(words.take("64"))
    flags += 2 * bool(has_page and words.take("shared"))
    words.expect("min")
    bounds = [words.number()]
    if words.take("max"):
        flags += 1
        bounds.append(words.number())
    if has_page and words.take("page"):
        flags += 8
        bounds.append(words.number())
    return b"".join(map(number, [flags, *bounds]))


class Module:
    """A module: types, imports, exports with what they define, and the functions that are required of it."""

    def __init__(self):
        self.types, self.imports, self.exports, self.required = [], [], [], []

    def item(self, words, kind=None):
        """The kind of an item and its type, as an import has it. `kind`: the word for it is left out."""
        kind = kind or words.expect(*KINDS)
        if kind == "func":
            self.types.append(function_type(words))
            return 0, number(len(self.types) - 1)
        if kind == "memory":
            return 2, limits(words, True)
        found = value_type(words)
        if found is None:
            raise words.bad("no value type")
        if kind == "table":
            return 1, found + limits(words, False)
        return 3, found + (b"\1" if words.take("mut") else b"\0")

    def add_import(self, words, kind=None):
        """`MODULE NAME TYPE`."""
        module, field = words.name(), words.name()
        self.imports.append((module, field, *self.item(words, kind)))
        words.end()

    def add_export(self, words):
        """`NAME TYPE`."""
        field = words.name()
        self.exports.append((field, *self.item(words)))
        words.end()

    def add_required(self, words):
        """`NAME PARAM.. -> RESULT..`."""
        field = words.name()
        if field in [it[0] for it in self.required]:
            raise words.bad("a key that is there before")
        self.required.append((field, function_type(words)))
        words.end()

    def required_bytes(self):
        """The required functions, as `nuigatre_validated_module` takes them."""
        return vector([name(field) + ty for field, ty in self.required])

    def bytes(self):
        """The module's bytes."""
        counts = [sum(kind == it[2] for it in self.imports) for kind in range(4)]
        defined, exports, globals_of_types = [[], [], [], []], [], []
        for field, kind, ty in self.exports:
            exports.append(name(field) + bytes([kind]) + number(counts[kind] + len(defined[kind])))
            defined[kind].append(ty)
        for ty in defined[3]:
            if ty[:-1] not in INITIALISERS:
                raise BadRow("no type of a global that a module defines")
            globals_of_types.append(ty + INITIALISERS[ty[:-1]])
        imports = [name(module) + name(field) + bytes([kind]) + ty for module, field, kind, ty in self.imports]
        sections = (1, self.types), (2, imports), (3, defined[0]), (4, defined[1]), (5, defined[2]), (6, globals_of_types)
        last = (7, exports), (10, [UNREACHABLE] * len(defined[0]))
        return HEADER + b"".join(section(ident, vector(items)) for ident, items in sections + last if items)


def described(lines):
    """The module of the lines that begin with `do `. A line `do ask ..` describes nothing."""
    module = Module()
    for line in lines:
        if line.startswith("do ") and not line.startswith("do ask "):
            words = Words(line.removeprefix("do "))
            if words.take("export"):
                module.add_export(words)
            elif words.take("requires"):
                module.add_required(words)
            else:
                module.add_import(words)
    return module
