"""A core module as a graph: its items, and what each names, read from its bytes. Types are left out: they lead to types alone."""
from module_bytes import name_at, number_at, sections, signed_at, vector_at

KINDS = "func", "table", "memory", "global"
# the bytes of types of references that have a type of the heap
REFERENCES = 0x63, 0x64
SPACES = {"f": "func", "t": "table", "m": "memory", "g": "global", "e": "elem", "d": "data"}
# the operators that open a block, and the one that closes it
OPENS, END = (2, 3, 4), 0x0B


def table(*rows):
    """What follows each operator: items of the spaces above, or T a function's type, n a number, b the type of a block, h a type
    of references, a an access of memory, v labels, s types of values, digits so many bytes."""
    return {operator: parts for parts, operators in rows for operator in operators}


OPERATORS = table(
    ("", (0, 1, 5, END, 0x0F, 0x1A, 0x1B, *range(0x45, 0xC5), 0xD1)), ("b", OPENS), ("v", [0x0E]),
    ("n", (0x0C, 0x0D, 0x20, 0x21, 0x22, 0x41, 0x42)), ("f", (0x10, 0x12, 0xD2)), ("Tt", (0x11, 0x13)), ("s", [0x1C]), ("g", (0x23, 0x24)), ("t", (0x25, 0x26)),
    ("a", range(0x28, 0x3F)), ("m", (0x3F, 0x40)), ("4", [0x43]), ("8", [0x44]), ("h", [0xD0]))
# those after 0xFC, and after 0xFD, where most have nothing more
BULK = table(("", range(8)), ("dm", [8]), ("d", [9]), ("mm", [10]), ("m", [11]), ("et", [12]), ("e", [13]), ("tt", [14]),
             ("t", (15, 16, 17)))
VECTORS = table(("a", (*range(12), 92, 93)), ("88", (12, 13)), ("1", range(21, 35)), ("a1", range(84, 92)))


def value_type_at(data, at):
    """The bytes of a type of values, and the index after them."""
    end = signed_at(data, at + 1)[1] if data[at] in REFERENCES else at + 1
    return data[at:end], end


def function_type_at(data, at):
    """The parameters and the results of a type, and the index after them; a ValueError if it is no function's."""
    if data[at] != 0x60:
        raise ValueError
    parameters, at = vector_at(data, at + 1, value_type_at)
    results, at = vector_at(data, at, value_type_at)
    return (parameters, results), at


def limits_at(data, at):
    """Nothing, and the index after the limits of a table or a memory."""
    flag, at = data[at], at + 1
    for _ in range(2 if flag & 1 else 1):
        _, at = signed_at(data, at)
    return None, at


class Code:
    """Operators from an index on: the items that they name, in order, and the tables and types of indirect calls."""

    def __init__(self, data, at):
        self.data, self.at, self.names, self.indirect = data, at, [], []

    def number(self):
        value, self.at = number_at(self.data, self.at)
        return value

    def skip(self):
        self.at = signed_at(self.data, self.at)[1]

    def part(self, what):
        if what == "T":
            self.indirect.append((self.number(), number_at(self.data, self.at)[0]))
        elif what in SPACES:
            self.names.append((SPACES[what], self.number()))
        elif what in "nh" or (what == "b" and self.data[self.at] not in REFERENCES):
            self.skip()
        elif what == "b":
            self.at = value_type_at(self.data, self.at)[1]
        elif what == "a":
            self.names.append(("memory", self.number() if self.number() & 64 else 0))
            self.skip()
        elif what == "v":
            for _ in range(self.number() + 1):
                self.skip()
        elif what == "s":
            self.at = vector_at(self.data, self.at, value_type_at)[1]
        else:
            self.at += int(what)

    def to_end(self):
        """Reads to the end of the expression; a KeyError at an operator that is not known."""
        depth = 1
        while depth:
            operator, self.at = self.data[self.at], self.at + 1
            if operator == 0xFD:
                parts = VECTORS.get(self.number(), "")
            else:
                parts = BULK[self.number()] if operator == 0xFC else OPERATORS[operator]
            for what in parts:
                self.part(what)
            depth += (operator in OPENS) - (operator == END)
        return self


class Module:
    """Items are pairs of a space and an index. `names` has what each item names, or None for a function whose body can't be read."""

    def __init__(self, data):
        self.sections = {ident: content for ident, content in sections(data) if ident}
        self.names, self.counts, self.indirect, self.sizes, self.active = {}, dict.fromkeys(SPACES.values(), 0), {}, {}, []
        self.types, self.function_types = self.items(1, function_type_at), []
        self.imports = self.items(2, self.import_at)
        self.function_types += self.items(3, number_at)
        self.items(4, lambda data, at: self.defined("table", *limits_at(data, value_type_at(data, at)[1])))
        self.items(5, lambda data, at: self.defined("memory", *limits_at(data, at)))
        self.items(6, self.global_at)
        self.exports = self.items(7, self.export_at)
        self.start = number_at(self.sections[8], 0)[0] if 8 in self.sections else None
        self.items(9, self.element_at)
        self.items(10, self.body_at)
        self.items(11, self.data_at)
        self.texts = self.function_texts(data)
        for item, names in self.names.items():
            if item[0] == "func" and any(index >= self.counts[space] for space, index in names or ()):
                self.names[item] = None

    def items(self, ident, read):
        return vector_at(self.sections.get(ident, b"\0"), 0, read)[0]

    def defined(self, space, names, at):
        """Puts the next item of a space."""
        item = space, self.counts[space]
        self.counts[space] += 1
        self.names[item] = [] if names is None else names
        return item, at

    def import_at(self, data, at):
        module, at = name_at(data, at)
        name, at = name_at(data, at)
        kind, at = KINDS[data[at]], at + 1
        if kind == "func":
            index, at = number_at(data, at)
            self.function_types.append(index)
        elif kind == "memory":
            _, at = limits_at(data, at)
        else:
            at = value_type_at(data, at)[1]
            at = limits_at(data, at)[1] if kind == "table" else at + 1
        item, at = self.defined(kind, None, at)
        return (module, name, item), at

    def global_at(self, data, at):
        code = Code(data, value_type_at(data, at)[1] + 1).to_end()
        return self.defined("global", code.names, code.at)

    def export_at(self, data, at):
        name, at = name_at(data, at)
        index, after = number_at(data, at + 1)
        return (name, (KINDS[data[at]], index)), after

    def filled(self, space, into, data, at, flag):
        """What an active segment names first, and the index after it; nothing for others."""
        if flag & 1:
            return [], at
        index, at = number_at(data, at) if flag & 2 else (0, at)
        code = Code(data, at).to_end()
        self.active.append(((space, self.counts[space]), into, index))
        return [(into, index), *code.names], code.at

    def element_at(self, data, at):
        flag, at = number_at(data, at)
        names, at = self.filled("elem", "table", data, at, flag)
        if flag & 3:
            at = value_type_at(data, at)[1] if flag & 4 else at + 1
        count, at = number_at(data, at)
        for _ in range(count):
            code = Code(data, at)
            if flag & 4:
                code.to_end()
            else:
                code.part("f")
            names, at = names + code.names, code.at
        return self.defined("elem", names, at)

    def data_at(self, data, at):
        flag, at = number_at(data, at)
        names, at = self.filled("data", "memory", data, at, flag)
        size, at = number_at(data, at)
        return self.defined("data", names, at + size)

    def body_at(self, data, at):
        size, at = number_at(data, at)
        item, names = ("func", self.counts["func"]), None
        try:
            _, begin = vector_at(data[:at + size], at, lambda data, at: value_type_at(data, number_at(data, at)[1]))
            code = Code(data[:at + size], begin).to_end()
            names, self.indirect[item] = code.names, code.indirect
        except (IndexError, KeyError, ValueError):
            pass
        self.defined("func", None, 0)
        self.names[item], self.sizes[item] = names, size
        return item, at + size

    def type_of(self, item):
        """The parameters and results of a function."""
        return self.types[self.function_types[item[1]]]

    @staticmethod
    def function_texts(data):
        """The names of functions by their indices, as the name section has them."""

        def named(data, at):
            index, at = number_at(data, at)
            text, at = name_at(data, at)
            return (index, text), at

        for content in (content for ident, content in sections(data) if ident == 0):
            text, at = name_at(content, 0)
            for ident, part in sections(content, at) if text == "name" else ():
                if ident == 1:
                    return dict(vector_at(part, 0, named)[0])
        return {}
