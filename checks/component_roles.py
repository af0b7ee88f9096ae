"""A component's file by its core modules, and which of them is the main module, an adapter, a library, a shim or a fixup
(docs/WCWHY.md)."""
import re
import sys

from component_paths import MAIN, Component, root_of
from module_bytes import HEADER, name_at, number_at
from module_items import Module
from repository import TOP

sys.path.append(str(TOP / "python"))
from nuigatre._lines import word

LAYER = b"\1\0"
# the ids of sections, and that of the names' subsection and sort
CUSTOM, CORE_MODULE, INSIDE, LAST = 0, 1, 4, 12
SORTS = 1
CORE_MODULES = b"\0\x11"
SHIMS, FIXUP, ADAPTER = ("wit-component-shim-module", "start-shim-module"), "wit-component-fixup", "wit-component:adapter:"
# what libraries import of the main module
SHARED = "env", "GOT.mem", "GOT.func"
MOST_NAMES, MOST_MODULES, MOST_CANDIDATES = 8, 16, 100


class Refused(Exception):
    """Why a file is refused: a text, and the byte that the JSON of it has, if it has one."""

    def __init__(self, text, byte=None):
        super().__init__(text)
        self.text, self.byte = text, byte


def is_component(data):
    return data[:4] == HEADER[:4] and data[6:8] == LAYER


def size_at(data, at):
    """The size of a section, and the index after it; a Refused if it is no number of 32 bits."""
    for end in range(at, at + 5):
        if end == len(data):
            raise Refused("Read: Truncated")
        if data[end] < 128 or (end == at + 4 and data[end] > 15):
            break
    if data[end] > 127 or (end == at + 4 and data[end] > 15):
        raise Refused("Read: BadNumber")
    return number_at(data, at)


def frames(data):
    """The sections of a component: their ids, and where their contents begin and end."""
    at = len(HEADER)
    while at < len(data):
        try:
            size, begin = size_at(data, at + 1)
            if begin + size > len(data):
                raise Refused("Read: Truncated")
            if data[at] > LAST:
                raise Refused("Read: UnknownSection")
        except Refused as why:
            raise Refused(why.text, at) from None
        yield data[at], begin, begin + size
        at = begin + size


def has_core_modules(data):
    """Whether a component, or one inside it, has core modules. Components may be nested deeper than calls are here."""
    waiting = [data]
    while waiting:
        it = waiting.pop()
        try:
            found = list(frames(it)) if it[:8] == HEADER[:4] + b"\x0d\0" + LAYER else []
        except Refused:
            continue
        if any(ident == CORE_MODULE for ident, _, _ in found):
            return True
        waiting += [it[begin:end] for ident, begin, end in found if ident == INSIDE]
    return False


def put_names(data, names):
    """Notes the names of core modules that a custom section has, as far as it can be read."""
    try:
        title, at = name_at(data, 0)
        while title == "component-name" and at < len(data):
            size, begin = size_at(data, at + 1)
            if begin + size > len(data):
                return
            if data[at] == SORTS and data[begin:begin + 2] == CORE_MODULES:
                put_listed(data[begin + 2:begin + size], names)
            at = begin + size
    except (IndexError, Refused, ValueError):
        pass


def put_listed(data, names):
    count, at = size_at(data, 0)
    for _ in range(count):
        index, at = size_at(data, at)
        length, begin = size_at(data, at)
        if begin + length > len(data):
            raise Refused("Read: Truncated")
        names[index], at = data[begin:begin + length].decode(), begin + length
    if at < len(data):
        raise Refused("Read: SectionSize")


class File:
    """A component's file: its core modules, where they begin, their names, and how many components inside it have core modules."""

    def __init__(self, data):
        version = int.from_bytes(data[4:6], "little")
        if version != 13:
            raise Refused(f"component of version {version}; version 13 is read")
        found, names = list(frames(data)), {}
        for ident, begin, end in found:
            if ident == CUSTOM:
                put_names(data[begin:end], names)
        self.offsets = [begin for ident, begin, _ in found if ident == CORE_MODULE]
        self.modules = [data[begin:end] for ident, begin, end in found if ident == CORE_MODULE]
        self.names = [names.get(index) for index in range(len(self.modules))]
        self.inside = sum(has_core_modules(data[begin:end]) for ident, begin, end in found if ident == INSIDE)
        self.read = {}

    def module(self, index):
        """A core module by its items; one object for equal ones."""
        data = self.modules[index]
        if data not in self.read:
            self.read[data] = Module(data)
        return self.read[data]

    def main(self, chosen=None):
        """The position of the main module, and whether it is told by its name."""
        if not self.modules:
            raise Refused(f"the component has no core module; components inside: {self.inside}")
        if chosen is not None:
            if chosen >= len(self.modules):
                raise Refused(f"no core module {chosen}; the component has {len(self.modules)}")
            return chosen, False
        named = [index for index, name in enumerate(self.names) if name == "main"]
        if len(named) > 1:
            raise self.unclear()
        return (named[0], True) if named else (0, False)

    def roles(self, chosen=None):
        """What each core module is: a kind, and the name that it serves or has."""
        main, by_name = self.main(chosen)
        roles = [("main",) if index == main else by_its_name(name, by_name) for index, name in enumerate(self.names)]
        untold = [index for index, role in enumerate(roles) if role is None]
        exports = {index: dict(self.module(index).exports) for index in untold}
        candidates = {}
        for index in untold:
            if not exports[index]:
                roles[index] = ("fixup",)
            elif all(re.fullmatch(r"[0-9]+|\$imports", name) for name in exports[index]):
                roles[index] = ("shim",)
            else:
                candidates[index] = exports[index]
        if candidates:
            for index, name in self.served(main, candidates, {role[1] for role in roles if role and role[0] == "adapter"}).items():
                roles[index] = ("other", f"core-{index}") if name is None else ("adapter", name)
        served = [role[1] for role in roles if role[0] == "adapter"]
        if len(set(served)) < len(served):
            raise self.unclear()
        return roles

    def served(self, main, candidates, told):
        """The name that each candidate serves; None for one that serves none."""
        wanted = {}
        for source, name, item in self.module(main).imports:
            if item[0] == "func":
                wanted.setdefault(source, []).append(name)
        if len(candidates) > MOST_CANDIDATES and wanted:
            raise self.unclear()
        serves = {index: [source for source, names in wanted.items() if source not in told
                          and all(is_exported(name, exports) for name in names)] for index, exports in candidates.items()}
        found = [source for sources in serves.values() for source in sources]
        if any(len(it) > 1 for it in serves.values()) or len(set(found)) < len(found):
            raise self.unclear()
        return {index: it[0] if it else None for index, it in serves.items()}

    def unclear(self):
        lines = [f"core module {index}: {self.said(index)}" for index in range(min(len(self.modules), MOST_MODULES))]
        more = len(self.modules) - MOST_MODULES
        lines += [f"{more} more core module{'s' * (more > 1)}"] if more > 0 else []
        text = "which core module is which can't be told; --core N picks the main module"
        return Refused("\n  ".join([text, *lines]))

    def said(self, index):
        """What a core module imports and exports, in words."""
        module = self.module(index)
        lists = [("imports from", [source for source, _, _ in module.imports]), ("exports", [name for name, _ in module.exports])]
        return "; ".join(listed(*it) for it in lists if it[1]) or "no imports, no exports"

    def component(self, chosen=None, exports=()):
        """The component of the core modules, each of which can be read."""
        roles = self.roles(chosen)
        main = self.module(next(index for index, role in enumerate(roles) if role[0] == "main"))
        given = {role[1] for role in roles if role[0] in ("adapter", "library")} | {MAIN}
        parts = [CoreModule(index, role[1], self.module(index), role[0], main, given) for index, role in enumerate(roles)
                 if role[0] in ("adapter", "library", "other")]
        return Component(main, parts, exports, given)


def by_its_name(name, has_main):
    """What a module of this name is; `has_main`: the main module is told by its name."""
    if name in SHIMS or name == FIXUP:
        return ("fixup",) if name == FIXUP else ("shim",)
    if name is not None and name.startswith(ADAPTER):
        return "adapter", name[len(ADAPTER):]
    return ("library", name) if name is not None and has_main else None


def listed(title, names):
    names = list(dict.fromkeys(names))
    more = f" and {len(names) - MOST_NAMES} more" if len(names) > MOST_NAMES else ""
    return f"{title} {' '.join(map(word, names[:MOST_NAMES]))}{more}"


def original_name(name):
    """The name of an import before it was renamed, since another one had it; None, if it was not."""
    found = re.fullmatch(r"(?s)(.*) \[v[0-9]+\]", name)
    return found and found[1]


def linked_export(name, exports):
    """The export that an import of this name is: by the name, or by the one before it was renamed."""
    if name in exports:
        return name
    original = original_name(name)
    return original if original in exports else None


def is_exported(name, exports):
    linked = linked_export(name, exports)
    return linked is not None and exports[linked][0] == "func"


def reached_alone(module):
    """The items that the exports, the start function and the active segments of a module lead to in it."""
    waiting = [item for _, item in module.exports] + [item for item, _, _ in module.active]
    waiting += [] if module.start is None else [("func", module.start)]
    reached = set()
    while waiting:
        item = waiting.pop()
        if item not in reached:
            reached.add(item)
            waiting += module.names[item] or ()
    return reached


class CoreModule:
    """A core module that is not the main module, as a part: an adapter, another one, or a library, of which only the imports are
    known. Imports from the names `given` are of other modules of the component."""

    is_core, is_needed = True, True

    def __init__(self, index, name, module, kind, main, given):
        self.index, self.name, self.module, self.exports, self.is_library = index, name, module, dict(module.exports), kind == "library"
        imported = [text for source, text, item in main.imports if source == name and item[0] == "func" and kind == "adapter"]
        found = {text: linked_export(text, self.exports) for text in imported}
        self.links = {text: linked for text, linked in found.items() if linked is not None}
        self.shared, self.reached = given.union(SHARED if self.is_library else ()), reached_alone(module)
        self.always, self.begin, self.fill = [], [], []
        if not self.is_library:
            self.always = [text for text in self.exports if text not in self.links.values()]
            self.begin = [] if module.start is None else [(("func", module.start), {"kind": "start"})]
            self.fill = [root_of(*it) for it in module.active]

    def linked(self, name):
        """The name of the export that a function which the main module imports under this name is."""
        return self.links.get(name)

    def closed(self):
        """The functions whose bodies can't be read, of those that are followed."""
        return [item for item in self.reached if self.module.names[item] is None]

    def labels(self):
        """Where paths may begin, each with its text, its item, and whether it is an export that the main module imports, another
        one, or no export."""
        linked = dict.fromkeys(self.links.values())
        found = [(text, self.exports[text], "exports" if text in linked else "stays") for text in [*linked, *self.always]]
        found += [("start", item, "roots") for item, _ in self.begin]
        return found + [(f"fills {root['space']} {root['index']}", item, "roots") for item, root in self.fill]
