#!/usr/bin/env python3
"""Damages modules byte by byte, and compares where the library's call `scan` says that they stop to be modules with what a reader
of this script's own finds.

    damaged-modules.py [--library FILE] [--cases N] [--first N] [--values N] [MODULE ..]

The library is that of tests/rows.py, or the shared one in FILE. The modules are by default those of examples/, the adapters of
adapter_shapes.py, and WHOLE, which has each kind of section and of type. At each byte a module is cut, the byte is taken out, a
zero is put before it, and it is replaced by N values (17; of WHOLE by all). --first and --cases choose some of these cases.

The reader follows crates/wc_read/MODEL.md, one byte at a time. Fault and place have to be those that it finds; of several places
of a fault the first. It also finds the first byte at which no completion of the bytes before it is a module, and counts the
faults whose place is another: in a header or a name it comes later, and in bounds it may come earlier. Left out are modules
with initialisers that are not constant, or whose type it doesn't know.

Up to 20 modules that differ are printed and kept in checks/data/damaged-modules; the last lines count the faults. The status is
1 if one differs.
"""
import argparse
import collections
import itertools
import os
import pathlib
import sys
import tempfile

TOP = pathlib.Path(__file__).resolve().parent.parent
sys.path.append(str(TOP / "tests"))
import calls
import library
from adapter_shapes import SHAPES
from module_bytes import HEADER, name, section, vector
from row_format import LeftOut

KEPT = TOP / "checks" / "data" / "damaged-modules"
NAMES = "custom type import function table memory global export start element code data".split() + ["data count"]
ORDER = {1: 1, 2: 2, 3: 3, 4: 4, 5: 5, 6: 6, 7: 7, 8: 8, 9: 9, 12: 10, 10: 11, 11: 12}
VALUES = {0x7F: "i32", 0x7E: "i64", 0x7D: "f32", 0x7C: "f64", 0x7B: "v128", 0x70: "func", 0x6F: "extern"}
ARITHMETIC = {**dict.fromkeys(range(0x6A, 0x6D), "i32"), **dict.fromkeys(range(0x7C, 0x7F), "i64")}
# What may follow the first bytes of a character.
REST = b"", b"\x80", b"\xa0", b"\x80\x80", b"\xa0\x80", b"\x80\x80\x80", b"\x90\x80\x80"
MOST_PRINTED = 20

# Types of all kinds; imports of each; functions, a table, memories with each flag, globals with each constant; exports,
# a start function, elements, a count of data, bodies, data, and custom sections among them.
WHOLE = HEADER + b"".join([
    section(0, name("first") + b"\xff"),
    section(1, vector([b"\x60\0\0", b"\x60" + vector([bytes([it]) for it in VALUES]) + vector([b"\x63\x70", b"\x64\x6f", b"\x63\x01", b"\x64\x80\0"])])),
    section(2, vector([name("env") + name("f") + b"\0\x81\0", name("env") + name("t") + b"\1\x70\1\1\5", name("é") + name("m") + b"\2\1\2\x80\2",
                       name("") + name("g") + b"\3\x7f\0", name("env") + name("s") + b"\2\3\1\x84\0"])),
    section(3, vector([b"\0", b"\1"])),
    section(4, vector([b"\x6f\0\3", b"\x63\1\4\1", b"\x70\5\2\x82\0"])),
    section(5, vector([b"\0\1", b"\4\xff\xff\xff\xff\xff\xff\xff\xff\xff\1", b"\x08\2\x10", b"\x09\1\xff\xff\xff\xff\x0f\0"])),
    section(6, vector([b"\x7f\1\x41\x7f\x41\xe5\0\x6a\x0b", b"\x7e\0\x42\x80\x7f\x0b", b"\x7d\0\x43abcd\x0b", b"\x7c\0\x44abcdefgh\x0b",
                       b"\x7b\0\xfd\x0cabcdefghijklmnop\x0b", b"\x70\0\xd0\x70\x0b", b"\x63\1\1\xd0\1\x0b", b"\x7f\0\x23\0\x0b", b"\x64\x70\0\xd2\2\x0b"])),
    section(7, vector([name("run") + b"\0\1", name("table") + b"\1\0", name("memory") + b"\2\2", name("größe") + b"\3\x80\0"])),
    section(8, b"\1"),
    section(9, b"\0"),
    section(12, b"\0"),
    section(10, vector([b"\2\0\x0b", b"\x84\0\1\1\x7f\x0b"])),
    section(11, b"\0"),
    section(0, name("last")),
])


class Stop(Exception):
    """Where bytes stop to be right: the fault, the place of the table and its section, and the first byte that is wrong."""

    def __init__(self, fault, place, section=None, first=None):
        super().__init__(fault)
        self.fault, self.place, self.section, self.first = fault, place, section, place if first is None else first

    def lines(self):
        where = "" if self.section is None else f", in the {NAMES[self.section]} section"
        return [f"fault {self.fault}", f"byte {self.place}{where}"]


class Undecided(Exception):
    """What this reader doesn't know."""


class Reader:
    """Reads the bytes from an index to an end, of a section or of none."""

    def __init__(self, data, at, end, section=None):
        self.data, self.at, self.end, self.section = data, at, end, section

    def stop(self, fault, place, first=None):
        return Stop(fault, place, self.section, first)

    def byte(self):
        if self.at == self.end:
            raise self.stop("Truncated", self.end)
        self.at += 1
        return self.data[self.at - 1]

    def skip(self, count):
        if self.end - self.at < count:
            raise self.stop("Truncated", self.end)
        self.at += count

    def number(self, bits, signed=False):
        """A number, and the bytes of it."""
        value, shift, begin = 0, 0, self.at
        while True:
            byte = self.byte()
            left = bits - shift
            if left <= 7:
                past = (byte & 0x7F) >> (left - 1 if signed else left)
                fits = past in (0, (1 << 8 - left) - 1) if signed else past == 0
                if byte >= 0x80 or not fits:
                    raise self.stop("BadNumber", self.at - 1)
            value |= (byte & 0x7F) << shift
            shift += 7
            if byte < 0x80:
                negative = signed and byte & 0x40
                return (value | -1 << shift if negative else value), self.data[begin:self.at]

    def u32(self):
        return self.number(32)[0]

    def name(self):
        size = self.u32()
        begin = self.at
        self.skip(size)
        try:
            return self.data[begin:self.at].decode()
        except UnicodeDecodeError as why:
            raise self.stop("BadName", begin, begin + first_wrong(self.data[begin:self.at], why.start)) from None

    def vector(self, item):
        return [item() for _ in range(self.u32())]

    def one_of(self, values, fault="BadType"):
        byte = self.byte()
        if byte not in values:
            raise self.stop(fault, self.at - 1)
        return byte

    def heap_type(self):
        """`func`, `extern`, or the index of a type."""
        begin = self.at
        if self.byte() in (0x70, 0x6F):
            return VALUES[self.data[begin]]
        self.at = begin
        index, _ = self.number(33, signed=True)
        if index < 0:
            raise self.stop("BadType", self.at - 1)
        return index

    def value_type(self):
        """A type: a word, or whether it has nulls and the heap type."""
        byte = self.one_of([*VALUES, 0x63, 0x64])
        if byte in VALUES:
            return (True, VALUES[byte]) if byte in (0x70, 0x6F) else VALUES[byte]
        return byte == 0x63, self.heap_type()

    def function_type(self):
        self.one_of([0x60])
        return self.vector(self.value_type), self.vector(self.value_type)

    def bounds(self, flags):
        """The maximum of limits, or the minimum if there is none."""
        bits = 64 if flags & 4 else 32
        minimum, _ = self.number(bits)
        if not flags & 1:
            return minimum
        begin = self.at
        maximum, digits = self.number(bits)
        if maximum < minimum:
            first = next(at for at in range(len(digits)) if largest(digits[:at + 1], bits) < minimum)
            raise self.stop("BadLimits", self.at - 1, begin + first)
        return maximum

    def table_type(self):
        element = self.value_type()
        if isinstance(element, str):
            raise self.stop("BadType", self.at - 1)
        self.bounds(self.one_of([0, 1, 4, 5], "BadLimits"))
        return element

    def memory_type(self):
        flags = self.one_of([it for it in range(16) if it & 3 != 2], "BadLimits")
        begin = self.at
        maximum = self.bounds(flags)
        pages = 1 << 16
        if flags & 8:
            exponent = self.u32()
            if exponent not in (0, 16):
                # a later byte makes no number smaller, and may leave 0 or 16 as it is
                raise self.stop("BadLimits", self.at - 1, self.first_past(exponent))
            pages = 1 << 32 - exponent
        if not flags & 4 and maximum > pages:
            raise self.stop("BadLimits", self.at - 1, self.at - 1 if flags & 8 else first_above(self.data, begin, flags, pages))

    def first_past(self, exponent):
        """The first byte of the number that ends here by which it is neither 0 nor 16."""
        begin = self.at - 1
        while begin > 0 and self.data[begin - 1] >= 0x80 and self.at - begin < 5:
            begin -= 1
        return begin if exponent & 0x7F not in (0, 16) else self.at - 1

    def global_type(self):
        return self.value_type(), self.one_of([0, 1])

    def imported(self):
        self.name()
        self.name()
        kind = self.one_of(range(4))
        return kind, (self.u32, self.table_type, self.memory_type, self.global_type)[kind]()

    def initialiser(self):
        """The types of what an initialiser leaves, as far as its operators tell."""
        left = []
        while True:
            code = self.byte()
            if code == 0x0B:
                return left
            if code in (0x41, 0x42):
                self.number(64 if code == 0x42 else 32, signed=True)
                left.append("i64" if code == 0x42 else "i32")
            elif code in (0x43, 0x44):
                self.skip(8 if code == 0x44 else 4)
                left.append("f64" if code == 0x44 else "f32")
            elif code == 0xFD:
                if self.u32() != 12:
                    raise Undecided
                self.skip(16)
                left.append("v128")
            elif code == 0xD0:
                left.append(("null", self.heap_type()))
            elif code == 0xD2:
                left.append(("function", self.u32()))
            elif code == 0x23:
                left.append(("global", self.u32()))
            elif code in ARITHMETIC and left[-2:] == [ARITHMETIC[code]] * 2:
                left.pop()
            else:
                raise Undecided

    def global_item(self):
        return self.global_type(), self.initialiser()

    def exported(self):
        return self.name(), self.one_of(range(4)), self.u32()

    def body(self):
        self.skip(self.u32())


def first_wrong(text, start):
    """The first byte from an index on by which a text is no beginning of UTF-8."""
    for at in range(start, len(text)):
        if not any(is_text(text[start:at + 1] + more) for more in REST):
            return at
    return len(text)


def is_text(text):
    try:
        text.decode()
    except UnicodeDecodeError:
        return False
    return True


def largest(digits, bits):
    """The largest number that begins with these digits."""
    value = sum((byte & 0x7F) << 7 * at for at, byte in enumerate(digits))
    return value if digits[-1] < 0x80 else value | (1 << bits) - (1 << 7 * len(digits))


def first_above(data, at, flags, most):
    """The first byte of bounds by which one of them is larger than this."""
    for _ in range(1 + (flags & 1)):
        value, shift = 0, 0
        while True:
            value |= (data[at] & 0x7F) << shift
            if value > most:
                return at
            shift, at = shift + 7, at + 1
            if data[at - 1] < 0x80:
                break
    raise AssertionError


def header(data):
    if data[:8] != HEADER:
        is_component = data[:8] == b"\0asm\x0d\0\1\0"
        first = next((at for at in range(min(8, len(data))) if data[at] != HEADER[at]), len(data))
        raise Stop("Component" if is_component else "NotWasm", 4 if data[:4] == HEADER[:4] else 0, None, first)


def framed(data):
    """The sections, each the index of its id, the id, and where its content begins and ends; and where no more can be cut."""
    reader, found = Reader(data, 8, len(data)), []
    try:
        while reader.at < len(data):
            start = reader.at
            kind, size = reader.byte(), reader.u32()
            begin = reader.at
            reader.skip(size)
            found.append((start, kind, begin, reader.at))
    except Stop as stop:
        return found, stop
    return found, None


def order(data, sections):
    """Where each section is wrong whose name or position among others is wrong."""
    position = 0
    for start, kind, begin, end in sections:
        try:
            if kind == 0:
                Reader(data, begin, end, kind).name()
            elif kind > 12:
                raise Stop("UnknownSection", start)
            elif ORDER[kind] <= position:
                raise Stop("SectionOrder", start)
            else:
                position = ORDER[kind]
        except Stop as stop:
            yield stop


def content(data, kind, begin, end):
    """What a section has; nothing of one that is not read."""
    reader = Reader(data, begin, end, kind)
    items = {1: reader.function_type, 2: reader.imported, 3: reader.u32, 4: reader.table_type, 5: reader.memory_type, 6: reader.global_item,
             7: reader.exported, 10: reader.body}
    if kind not in items and kind != 8:
        return []
    found = reader.vector(items[kind]) if kind in items else [reader.u32()]
    if reader.at < end:
        raise Stop("SectionSize", reader.at, kind)
    return found


def contents(data, sections):
    """What the sections have, by their ids; and of each section whose content is wrong where that is."""
    found, stops = {kind: [] for kind in ORDER}, []
    for _, kind, begin, end in sections:
        try:
            found[kind] = content(data, kind, begin, end)
        except Stop as stop:
            stops.append(stop)
    return found, stops


def indices(types):
    """The indices of types that types name."""
    return [it[1] for it in types if not isinstance(it, str) and isinstance(it[1], int)]


def check_indices(data, sections, found):
    """What holds of a module beside its sections."""
    starts = {kind: begin for _, kind, begin, _ in sections if kind}
    if len(found[3]) != len(found[10]):
        raise Stop("CountMismatch", starts.get(10, len(data)), 10 if 10 in starts else None)
    imports = [[it for kind, it in found[2] if kind == wanted] for wanted in range(4)]
    globals_ = imports[3] + [it[0] for it in found[6]]
    counts = [len(imports[0]) + len(found[3]), len(imports[1]) + len(found[4]), len(imports[2]) + len(found[5]), len(globals_)]
    named = [
        (1, indices([it for both in found[1] for types in both for it in types])),
        (2, imports[0] + indices(imports[1] + [it[0] for it in imports[3]])),
        (3, found[3]),
        (4, indices(found[4])),
        (6, indices([it[0][0] for it in found[6]])),
    ]
    # the nulls of initialisers name types too; that alone is a fault of the initialiser, which is looked for last
    nulls = [it[1] for _, left in found[6] for it in left if not isinstance(it, str) and it[0] == "null" and not isinstance(it[1], str)]

    def is_outside(its):
        return any(it >= len(found[1]) for it in its)

    if any(is_outside(its) for _, its in named) or any(index >= counts[kind] for _, kind, index in found[7]):
        kind = next((kind for kind, its in [*named[:4], (6, named[4][1] + nulls)] if is_outside(its)), 7)
        raise Stop("BadIndex", starts[kind], kind)
    if len({it[0] for it in found[7]}) < len(found[7]):
        raise Stop("DuplicateExport", starts[7], 7)
    for at, ((wanted, _), left) in enumerate(found[6]):
        if len(left) != 1 or not is_of_type(left[0], wanted, found[1], counts[0], globals_[:len(imports[3]) + at]):
            if is_outside(nulls):
                raise Stop("BadIndex", starts[6], 6)
            raise Undecided
    functions = imports[0] + found[3]
    for index in found[8]:
        if index >= len(functions):
            raise Stop("BadIndex", starts[8], 8)
        if found[1][functions[index]] != ([], []):
            raise Stop("BadStart", starts[8], 8)


def class_of(ty):
    """The class of a type: of references to functions, or to values of the host, or its own."""
    return ty if isinstance(ty, str) else "extern" if ty[1] == "extern" else "func"


def is_of_type(value, wanted, types, functions, globals_):
    """Whether what an initialiser leaves is of a type."""
    if isinstance(value, str):
        return value == wanted
    what, it = value
    if what == "global":
        return it < len(globals_) and globals_[it][1] == 0 and class_of(globals_[it][0]) == class_of(wanted)
    if isinstance(wanted, str):
        return False
    if what == "function":
        return class_of(wanted) == "func" and it < functions
    return wanted[0] and class_of((True, it)) == class_of(wanted) and (isinstance(it, str) or it < len(types))


def check(data):
    """Ends with the fault of bytes that are no module, at the first place that has it."""
    header(data)
    sections, cut = framed(data)
    misplaced = list(order(data, sections))
    found, wrong = contents(data, sections)
    stops = [cut] if cut else misplaced + wrong
    if not stops:
        return check_indices(data, sections, found)
    same = [stop for stop in [*misplaced, *wrong, *([cut] if cut else [])] if stop.fault == stops[0].fault]
    raise min(same, key=lambda stop: stop.place)


def answer(data):
    """The lines that are wanted, and where the bytes stop to be right, if they do."""
    try:
        check(data)
    except Stop as stop:
        return stop.lines(), stop
    return ["ok"], None


def spread(count):
    return sorted({it * 255 // max(count - 1, 1) for it in range(count)})


def damaged(data, values):
    """The module with each byte damaged in each way."""
    for at in range(len(data) + 1):
        yield data[:at]
        yield data[:at] + b"\0" + data[at:]
        if at < len(data):
            yield data[:at] + data[at + 1:]
            for value in values:
                if value != data[at]:
                    yield data[:at] + bytes([value]) + data[at + 1:]


def cases_of(words):
    if words.modules:
        modules = [(it.read_bytes(), spread(words.values)) for it in words.modules]
    else:
        paths = sorted((TOP / "examples").rglob("*.wasm"))
        shapes = [make(count)[0] for make, _ in SHAPES.values() for count in (1, 3)]
        modules = [(WHOLE, range(256))] + [(it, spread(words.values)) for it in [path.read_bytes() for path in paths] + shapes if len(it) <= 4096]
    for data, values in modules:
        yield from damaged(data, values)


def asked(words, folder):
    """The library: the one that is named, or else that of tests/rows.py, linked in a folder."""
    if words.library:
        return library.Library(words.library, "given")
    try:
        return library.library(pathlib.Path(folder))
    except LeftOut as why:
        sys.exit("%s; --library names one" % why)


def answered(found, data):
    """What the library says of a module."""
    return calls.explained(found, "scan", found.ask("scan", data, room=4096 + 64 * len(data)))


def main():
    parser = argparse.ArgumentParser(description=__doc__, formatter_class=argparse.RawDescriptionHelpFormatter)
    parser.add_argument("--library", metavar="FILE", type=os.path.abspath)
    parser.add_argument("--cases", type=int)
    parser.add_argument("--first", type=int, default=0)
    parser.add_argument("--values", type=int, default=17)
    parser.add_argument("modules", nargs="*", metavar="MODULE", type=pathlib.Path)
    words = parser.parse_args()
    counts, apart, wrong = collections.Counter(), collections.Counter(), 0
    last = None if words.cases is None else words.first + words.cases
    with tempfile.TemporaryDirectory(prefix="nuigatre.") as folder:
        found = asked(words, folder)
        for at, data in itertools.islice(enumerate(cases_of(words)), words.first, last):
            lines = answered(found, data)
            try:
                wanted, stop = answer(data)
            except Undecided:
                counts["left out"] += 1
                continue
            counts[wanted[0]] += 1
            if stop and stop.first != stop.place:
                apart[f"{stop.fault}, {'before' if stop.first < stop.place else 'after'} its place"] += 1
            if lines != wanted:
                wrong += 1
                if wrong <= MOST_PRINTED:
                    print(f"case {at}: wanted {'; '.join(wanted)}; answered {'; '.join(lines)}", flush=True)
                    KEPT.mkdir(parents=True, exist_ok=True)
                    (KEPT / f"{at}.wasm").write_bytes(data)
    for kind in sorted(counts):
        print("%8d %s" % (counts[kind], kind))
    for kind in sorted(apart):
        print("%8d have the first byte that is wrong elsewhere: %s" % (apart[kind], kind))
    print("%d cases, %d otherwise" % (sum(counts.values()), wrong))
    return 1 if wrong else 0


if __name__ == "__main__":
    sys.exit(main())
