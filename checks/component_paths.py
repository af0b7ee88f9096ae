"""A component of modules as one graph, searched breadth first, and the tree of paths that follows from it (docs/PATHS.md)."""
import collections
from itertools import zip_longest

MAIN = "__main_module__"
REALLOCS = "canonical_abi_realloc", "cabi_import_realloc", "cabi_export_realloc", "cabi_realloc_adapter"
NUMBERS = [b"\x7f"] * 4, [b"\x7f"]
FIRST_CALLERS = 3


def may_need(module, name, item):
    """Whether a component may need an export of an adapter, where no world is known."""
    if "#" in name or name.startswith("cm32p2") or name in REALLOCS:
        return True
    if item[0] == "func":
        return {"cabi_realloc": NUMBERS, "_initialize": ([], [])}.get(name) == module.type_of(item)
    return (item[0], name) in (("memory", "memory"), ("table", "__indirect_function_table"))


class Adapter:
    """An adapter of this name: what it has to export whatever the main module imports, and what is imported of it."""

    is_core, is_library, shared, reached = False, False, (), frozenset()

    def __init__(self, name, module, main, asked=(), always=None):
        self.name, self.module = name, module
        self.imported = [text for source, text, item in main.imports if source == name and item[0] == "func"]
        needed = [text for text, item in module.exports if may_need(module, text, item)]
        self.always = list(dict.fromkeys([*needed, *asked] if always is None else always))
        self.is_needed = bool(self.imported or asked or always or any("#" in text for text, _ in module.exports))
        self.exports, self.begin, self.fill = dict(module.exports), [], []

    def linked(self, name):
        """The name of the export that a function which the main module imports under this name is."""
        return name

    def labels(self):
        """The exports that are required, each with its text, its item, and why it is required."""
        return [(text, self.exports[text], "stays" if text in self.always else "exports")
                for text in dict.fromkeys([*self.imported, *self.always])]


def root_of(item, space, index):
    """An active segment, and what is said of it as a root."""
    return item, {"kind": "fills", "space": space, "index": index}


class Component:
    """Items are pairs of a part's number and an item of its module. `found` has for each item to which a list of roots leads the
    item before it on its path, or the root. Adapters may also be core modules of a component's file, of which `given` are the
    names that imports from other modules of the component have."""

    def __init__(self, main, adapters=None, exports=(), given=None):
        self.is_alone = adapters is None
        self.given = {MAIN, *(given if given is not None else (it.name for it in adapters or ()))}
        self.adapters = [it for it in adapters or () if it.is_needed]
        self.main, self.modules = main, [main, *(it.module for it in self.adapters)]
        self.names_of_parts = [None, *(it.name for it in self.adapters)]
        self.links = {(0, item): (part, it.linked(name)) for source, name, item in main.imports if item[0] == "func"
                      for part, it in enumerate(self.adapters, 1) if it.name == source and it.linked(name) is not None}
        self.lists, self.unread = self.roots(exports), None
        reached = self.search(self.lists[1:3])
        closed = [item for part, item in reached if not part and main.names[item] is None]
        if closed:
            self.unread = {"kind": "unread", "body": f"body of function {closed[0][1]}"}
            self.lists[1:3] = [], [it for it in self.lists[2] if it[0][0]]
        self.reached = set() if closed else {item for part, item in reached if part == 0}
        if not self.is_alone:
            found = self.search(self.lists)
            others = [(0, item) for _, _, item in main.imports if (0, item) not in found]
            others = [(item, self.unread or {"kind": "unreached"}) for item in others]
            self.lists.append(others + [(item, {"kind": "library"}) for item in self.imports_of_libraries()])
        self.found = self.search(self.lists)

    def is_fault(self, functions):
        """Whether a body of the main module that is not known is a fault: where it stands alone, or functions are asked for."""
        return self.unread is not None and (self.is_alone or bool(functions))

    def roots(self, exports):
        """The first three lists of roots: items, each with what is said of it."""
        always, fill = [], [((0, item), root) for item, root in (root_of(*it) for it in self.main.active)]
        for part, it in enumerate(self.adapters, 1):
            always += [((part, it.exports[name]), {"kind": "export", "name": name, "main": None}) for name in it.always]
            always += [((part, item), root) for item, root in it.begin]
            fill += [((part, item), root) for item, root in it.fill]
        items = dict(self.main.exports)
        begin = [((0, items[name]), {"kind": "export", "name": name}) for name in exports or items]
        if self.main.start is not None:
            begin.append(((0, ("func", self.main.start)), {"kind": "start"}))
        return [always, begin, fill]

    def names(self, item):
        """What an item names: in its part, and then by its link."""
        part, own = item
        for other in self.modules[part].names[own] or ():
            yield part, other
        if item in self.links:
            linked, name = self.links[item]
            yield linked, self.adapters[linked - 1].exports[name]

    def search(self, lists, without=None):
        """Each item that the lists lead to without an item, in the order in which it is found, and what it is found by."""
        found = {}
        for roots in lists:
            waiting = collections.deque()
            for item, root in roots:
                if item not in found and item != without:
                    found[item] = root
                    waiting.append(item)
            while waiting:
                item = waiting.popleft()
                for other in self.names(item):
                    if other not in found and other != without:
                        found[other] = item
                        waiting.append(other)
        return found

    def path(self, item):
        """The items of the path to an item, and its root; no items where nothing leads to it."""
        items, before = [], item if item in self.found else {}
        while not isinstance(before, dict):
            items.append(before)
            before = self.found[before]
        return items[::-1], before

    def is_marked(self, item, targets):
        return item not in targets and targets.isdisjoint(self.search(self.lists, item))

    def callers(self, before, item):
        """The functions that may call a function of an active segment through its table."""
        part, module = before[0], self.modules[before[0]]
        into = {segment: (space, index) for segment, space, index in module.active}.get(before[1])
        if into is None or into[0] != "table" or item[1][0] != "func":
            return None
        kind, types, calls = module.type_of(item[1]), module.types, module.indirect
        reached = self.adapters[part - 1].reached if part else self.reached
        found = [index for space, index in sorted(reached) if space == "func"
                 and any(types[of] == kind and table == into[1] for of, table in calls.get((space, index), ()))]
        first = [{"index": it, "name": module.texts.get(it)} for it in found[:FIRST_CALLERS]]
        return {"first": first, "count": len(found)} if found else None

    def imports_of_libraries(self):
        """The items of all that libraries import."""
        for part, it in enumerate(self.adapters, 1):
            for _, _, item in it.module.imports if it.is_library else ():
                yield part, item

    def imports(self):
        """The imports to which paths may lead: their texts and items."""
        for source, name, item in self.main.imports:
            if self.is_alone or source not in self.given:
                yield source, name, (0, item)
        for part, it in enumerate(self.adapters, 1):
            for source, name, item in it.module.imports:
                if source != MAIN and (source, name) != ("env", "memory") and source not in it.shared:
                    yield source, name, (part, item)

    def tree(self, targets, asked=None):
        """The tree of the paths to targets, by modules, with items in the order of first use, each with its root or the item
        before it; and the items' positions. With marks where something is asked for."""
        placed, places = [[] for _ in self.modules], {}
        for target in targets:
            items, root = self.path(target)
            for before, item in zip([None, *items], items):
                part, (space, index) = item
                if item not in places:
                    name = self.modules[part].texts.get(index) if space == "func" else None
                    it = {"space": space, "index": index, "name": name, "root": None, "from": None, "callers": None}
                    if before is None:
                        it["root"] = root if root["kind"] != "library" else None
                    elif before[0] == part:
                        it["from"], it["callers"] = places[before], self.callers(before, item)
                    else:
                        it["root"] = {"kind": "export", "name": self.links[before][1], "main": places[before]}
                    if asked is not None:
                        it["only"] = self.is_marked(item, asked)
                    places[item] = len(placed[part])
                    placed[part].append(it)
        return [{"adapter": name, "items": items} for name, items in zip(self.names_of_parts, placed)], places


def with_roots(modules):
    """The modules of a printed tree, with each root at its item."""
    def rooted(module, it):
        return {**it, "root": None if it["root"] is None else module["roots"][it["root"]]}

    return [{"adapter": it["adapter"], "items": [rooted(it, item) for item in it["items"]]} for it in modules]


def different_in(what, wanted, printed):
    """Where two lists first differ, in words; nothing where they are equal."""
    pairs = enumerate(zip_longest(wanted, printed))
    return next((f"{what} {place}: {theirs!r}, {ours!r} wanted" for place, (ours, theirs) in pairs if ours != theirs), "")


def difference(wanted, printed):
    """The same of two trees."""
    found = [different_in("module", [it["adapter"] for it in wanted], [it["adapter"] for it in printed])]
    for ours, theirs in zip(wanted, printed):
        found.append(different_in(f"item of {ours['adapter'] or 'main'}", ours["items"], theirs["items"]))
    return next(filter(None, found), "")


def way_of(source, name, item, places):
    """What the JSON has of the path to an import."""
    of = {"module": source, "name": name}
    return {"interface": source, "name": name, "module": item[0], "item": places[item], "import": of, "type": None}
