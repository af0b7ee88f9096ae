"""Random main modules and adapters, and files of components of them, with each kind of item. Bodies only name items: no stack is
right in them."""
import collections

from module_bytes import HEADER, function_import, name, number, section, types, vector

ADAPTERS = "one", "two"
INTERFACES = "wasi:x/y@0.2.6", "wasi:x/z@0.2.6", "wasi:w/v", "env"
TYPES = [b"\x60\0\0", b"\x60\1\x7f\0", b"\x60\4\x7f\x7f\x7f\x7f\1\x7f", b"\x60\0\1\x7e"]
# exports that a component may need of an adapter, or not, as their kinds are
KNOWN = "cabi_import_realloc", "cabi_realloc", "_initialize", "memory", "wasi:cli/run@0.2.6#run", "cm32p2_init"
NAMES = [None, "plain", "two words", "tab\there", "back\\slash", "größe", "", "_ZN4core3fmt5Write3fmt17h0123456789abcdefE",
         "_ZN42_$LT$$RF$T$u20$as$u20$core..fmt..Debug$GT$3fmt17h0123456789abcdefE"]
KINDS = "func", "table", "memory", "global"
# operators that name an item, the most frequent more than once; and others
NAMING = [("func", b"\x10"), ("func", b"\x10"), ("func", b"\x10"), ("func", b"\x12"), ("func", b"\xd2"), ("global", b"\x23"),
          ("global", b"\x24"), ("table", b"\x26"), ("table", b"\xfc\x10"), ("memory", b"\xfc\x0b")]
OTHERS = [b"\x02\x40\x01\x0b", b"\x0e\1\0\0", b"\x42\x80\x7f", b"\xfd\x0c" + bytes(16), b"\x1c\1\x7f", b"\x43abcd", b"\xd0\x70"]


class Maker:
    """A module that is being made: how many items it has of each kind, and its sections."""

    def __init__(self, chance, imports, more):
        self.chance = chance
        self.imports, self.kinds = imports, [kind for _, _, kind in imports]
        self.defined = {kind: chance.randint(0, most) for kind, most in more.items()}
        self.counts = {kind: self.kinds.count(kind) + self.defined[kind] for kind in KINDS}
        self.types = [chance.randrange(len(TYPES)) for _ in range(self.counts["func"])]
        self.segments = []

    def index(self, kind):
        return number(self.chance.randrange(self.counts[kind]))

    def constant(self):
        """A number, as an initialiser or an offset."""
        count = self.kinds.count("global")
        return (b"\x23" + number(self.chance.randrange(count)) if count and self.chance.random() < 0.5 else b"\x41\0") + b"\x0b"

    def reference(self):
        return b"\xd2" + self.index("func") + b"\x0b"

    def variable(self):
        """A global: a number, or a function."""
        return b"\x70\1" + self.reference() if self.counts["func"] and self.chance.random() < 0.5 else b"\x7f\1" + self.constant()

    def operator(self):
        there = [it for it in NAMING if self.counts[it[0]]]
        choice = self.chance.random()
        if choice < 0.15 and self.counts["table"]:
            return self.chance.choice((b"\x11", b"\x13")) + number(self.chance.randrange(len(TYPES))) + self.index("table")
        if choice < 0.2 and self.counts["memory"]:
            return self.chance.choice((b"\x28\2", b"\x28\x42" + self.index("memory"))) + b"\0"
        if choice < 0.25 or not there:
            return self.chance.choice(OTHERS)
        if choice < 0.27 and self.segments:
            return b"\xfc\x0d" + number(self.chance.randrange(len(self.segments)))
        kind, operator = self.chance.choice(there)
        return operator + self.index(kind)

    def body(self, unread):
        code = b"".join(self.operator() for _ in range(self.chance.choice((0, 1, 2, 3, 4, 6))))
        if self.chance.random() < unread:
            code += self.chance.choice((b"\xff", b"\x10" + number(self.counts["func"])))
        locals_ = vector([b"\2\x7f"] * self.chance.randint(0, 1))
        text = locals_ + code + b"\x0b"
        return number(len(text)) + text

    def element(self):
        flag = self.chance.choice((0, 0, 0, 1, 2, 3, 4, 5, 6))
        if not self.counts["func"] or (not flag & 1 and not self.counts["table"]):
            return b"\1\0\0"
        text = number(flag)
        if not flag & 1:
            text += (self.index("table") if flag & 2 else b"") + self.constant()
        if flag & 3:
            text += b"\x70" if flag & 4 else b"\0"
        filled = range(self.chance.randint(0, 3))
        return text + vector([self.reference() if flag & 4 else self.index("func") for _ in filled])

    def data(self):
        if not self.counts["memory"] or self.chance.random() < 0.2:
            return b"\1\1x"
        return (b"\2" + self.index("memory") if self.chance.random() < 0.5 else b"\0") + self.constant() + b"\1x"

    def bytes(self, exports, start, unread, with_segments):
        """The module, with these exports: names and kinds."""
        chance = self.chance
        forms, types = {"table": b"\1\x70\0\1", "memory": b"\2\0\1", "global": b"\3\x7f\0"}, iter(self.types)
        starts = [index for index, kind in enumerate(self.types) if kind == 0 and start]
        self.segments = [self.element() for _ in range(chance.randint(0, 3) if with_segments else 0)]
        data = [self.data() for _ in range(chance.randint(0, 2) if with_segments else 0)]
        exported = [name(text) + bytes([KINDS.index(kind)]) + self.index(kind) for text, kind in exports if self.counts[kind]]
        named = [(index, chance.choice(NAMES)) for index in range(self.counts["func"])]
        named = [number(index) + name(text) for index, text in named if text is not None]
        return HEADER + b"".join([
            section(1, vector(TYPES)),
            section(2, vector([name(source) + name(text) + (forms.get(kind) or b"\0" + number(next(types)))
                               for source, text, kind in self.imports])),
            section(3, vector([number(it) for it in types])),
            section(4, vector([b"\x70\0\1"] * self.defined["table"])),
            section(5, vector([b"\0\1"] * self.defined["memory"])),
            section(6, vector([self.variable() for _ in range(self.defined["global"])])),
            section(7, vector(exported)),
            section(8, number(chance.choice(starts))) if starts else b"",
            section(9, vector(self.segments)) if with_segments else b"",
            section(10, vector([self.body(unread) for _ in range(self.defined["func"])])),
            section(11, vector(data)) if with_segments else b"",
            section(0, name("name") + section(1, vector(named))) if chance.random() < 0.8 else b"",
        ])


def adapter_of(chance, prefix="e", is_whole=False, sources=INTERFACES[:3]):
    """An adapter: its bytes, and the names of the functions that it exports. `is_whole`: also a start function and segments."""
    imports = [(chance.choice(sources), f"f{it}", "func") for it in range(chance.randint(1, 5))]
    imports += [("__main_module__", "cabi_realloc", "func")] * chance.randint(0, 1)
    imports += [("env", "memory", "memory")] * chance.randint(0, 1)
    imports += [(chance.choice(INTERFACES[:3]), "g", "global")] * chance.randint(0, 1)
    chance.shuffle(imports)
    maker = Maker(chance, imports, {"func": chance.choice((3, 8, 20)), "table": 1, "memory": 0, "global": 2})
    exports = [(f"{prefix}{it}", "func") for it in range(chance.randint(1, 5))]
    exports += [(text, "memory" if text == "memory" else "func") for text in KNOWN if chance.random() < 0.12]
    chance.shuffle(exports)
    made = maker.bytes(exports, is_whole and chance.random() < 0.4, 0.01 if is_whole else 0, is_whole)
    return made, [text for text, kind in exports if kind == "func" and maker.counts["func"]]


def renamed(imports):
    """Imports, of which those with the name of an earlier one have other names, as linkers of components give them."""
    counts, found = collections.Counter(), []
    for source, text, kind in imports:
        counts[source, text] += 1
        found.append((source, text if counts[source, text] == 1 else f"{text} [v{counts[source, text]}]", kind))
    return found


def main_of(chance, adapters, rename=lambda imports: imports):
    """A main module that imports functions of adapters, whose names and exports these are, and of interfaces."""
    offered = [(source, text, "func") for source, exports in adapters for text in exports]
    # some of them often, so that some are imported more than once
    imports = [chance.choice(offered[:chance.choice((2, 9))]) for _ in range(chance.randint(0, 5))] if offered else []
    imports += [(chance.choice(INTERFACES), f"m{it}", chance.choice(KINDS + ("func",) * 3)) for it in range(chance.randint(0, 4))]
    chance.shuffle(imports)
    maker = Maker(chance, rename(imports), {"func": chance.choice((3, 8, 20)), "table": 2, "memory": 1, "global": 2})
    exports = [(f"x{it}", chance.choice(KINDS + ("func",) * 3)) for it in range(chance.randint(0, 4))]
    return maker.bytes(exports, chance.random() < 0.3, 0.05 if chance.random() < 0.2 else 0, True)


COMPONENT = b"\0asm\x0d\0\1\0"
# the modules by which an encoder joins a main module and adapters
SHIM = HEADER + types() + section(3, b"\2\0\0") + section(4, b"\1\x70\0\2") + section(7, vector([
    name("0") + b"\0\0", name("1") + b"\0\1", name("$imports") + b"\1\0"])) + section(10, vector([b"\2\0\x0b"] * 2))
FIXUP = HEADER + types() + section(2, vector([function_import("", "0"), name("") + name("$imports") + b"\1\x70\0\1"]))
# sections that are passed over
PASSED = 2, 3, 5, 6, 7, 8, 9, 10, 11, 12


def core_modules_of(chance):
    """The core modules of a component: the bytes of each, and the name that an encoder gives it; the main module is the first."""
    adapters = [(text, *adapter_of(chance, chance.choice((text, text, text, "e")), True))
                for text in chance.sample(("one", "two", "three"), chance.randint(0, 3))]
    main = main_of(chance, [(text, exports) for text, _, exports in adapters], renamed)
    others = [(made, "wit-component:adapter:" + text) for text, made, _ in adapters]
    if chance.random() < 0.3:
        others.append((adapter_of(chance, "other", True)[0], "wit-component:adapter:other"))
    if chance.random() < 0.5:
        others += [(SHIM, "wit-component-shim-module"), (FIXUP, "wit-component-fixup")]
    if chance.random() < 0.2:
        others.append((SHIM, "start-shim-module"))
    for count in range(chance.choice((0, 0, 0, 1, 2))):
        sources = (*INTERFACES[:2], "env", "GOT.mem", "GOT.func", "one", "lib0.so")
        others.append((adapter_of(chance, f"lib{count}", True, sources)[0], f"lib{count}.so"))
    chance.shuffle(others)
    return [(main, "main"), *others]


def names_of_modules(named):
    """The custom section with names of core modules, of which these are the indices and the names, and with others."""
    listed = b"\0\x11" + vector([number(index) + name(text) for index, text in named])
    return section(0, name("component-name") + section(0, name("made")) + section(1, b"\1\1\0\1f") + section(1, listed)
                   + section(1, b"\0\x12\1\0" + name("main")))


def component_of(chance):
    """The file of a component: sections, that of names included, among which the core modules are."""
    modules, kind = core_modules_of(chance), chance.choice(("all", "all", "none", "none", "some"))
    if kind == "all" and chance.random() < 0.3:
        chance.shuffle(modules)
    share = {"all": 1, "none": 0, "some": 0.5}[kind]
    named = [(index, text) for index, (_, text) in enumerate(modules) if chance.random() < share]
    parts = [section(1, made) for made, _ in modules]
    for _ in range(chance.choice((0, 0, 1, 2))):
        inner = b"".join(chance.sample([section(1, SHIM), section(7, b"\0"), section(4, COMPONENT + section(1, FIXUP)), b"\x0d\0"], 2))
        parts.insert(chance.randint(0, len(parts)), section(4, COMPONENT + inner))
    for _ in range(chance.randint(0, 4)):
        passed = section(chance.choice(PASSED), bytes(chance.randrange(256) for _ in range(chance.choice((0, 3, 200)))))
        parts.insert(chance.randint(0, len(parts)), passed)
    if named:
        parts.insert(chance.randint(0, len(parts)), names_of_modules(named))
    return COMPONENT + b"".join(parts)
