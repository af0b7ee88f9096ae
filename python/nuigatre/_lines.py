"""Paths as lines, in the words of wcwhy and wcplan: a printer of the tree that `component_paths` answers, and the same tree of
modules without a world."""

from __future__ import annotations

import re
import unicodedata
from collections.abc import Iterator, Sequence
from typing import Any, Optional

from . import Bytes, Fault, paths, scan
from ._places import escaped

# what modules and adapters call the main module
MAIN = "__main_module__"
# exports of an adapter that a component may need under these names, or of these kinds and types
REALLOCS = ("canonical_abi_realloc", "cabi_import_realloc", "cabi_export_realloc", "cabi_realloc_adapter")
NEEDED = {
    "cabi_realloc": ("func", {"params": ["i32"] * 4, "results": ["i32"]}), "_initialize": ("func", {"params": [], "results": []}),
    "memory": ("memory", None), "__indirect_function_table": ("table", None),
}

Tree = dict[str, Any]
#: A name of an adapter, its bytes, and exports that are asked for.
Named = tuple[str, Bytes, Sequence[str]]


class Refused(Exception):
    """Nothing is imported that a key asks about, or there is a fault in an adapter: the line of that."""


def text(name: str) -> str:
    return escaped(name.replace("\\", "\\\\"))


def word(name: str) -> str:
    return text(name).replace(" ", "\\u{20}")


SYMBOLS = {"LT": "<", "GT": ">", "LP": "(", "RP": ")", "RF": "&", "BP": "*", "SP": "@", "C": ","}


def rust_part(part: str) -> str:
    """A part of a mangled name: `..` stands for `::`, and a text between two `$` for a character."""
    out, rest = "", part[1:] if part.startswith("_$") else part
    while rest:
        name, dollar, after = rest[1:].partition("$") if rest[0] == "$" else ("", "", "")
        code = re.fullmatch("u([0-9a-f]+)", name)
        if rest.startswith(".."):
            out, rest = out + "::", rest[2:]
        elif dollar and name in SYMBOLS:
            out, rest = out + SYMBOLS[name], after
        elif dollar and code and int(code[1], 16) < 0x110000 and is_shown(chr(int(code[1], 16))):
            out, rest = out + chr(int(code[1], 16)), after
        elif rest[0] == "$":
            return out + rest
        else:
            out, rest = out + rest[0], rest[1:]
    return out


def is_shown(character: str) -> bool:
    """Whether a character is one that no control is, nor half of one of UTF-16."""
    return unicodedata.category(character) not in ("Cc", "Cs")


def rust_name(name: str) -> str:
    """A name as its author wrote it, where Rust mangled it (the older form); another stays as it is."""
    if not (name.startswith("_ZN") and name.isascii()):
        return name
    parts, at = [], 3
    while (size := re.match("[1-9][0-9]*", name[at:])):
        first = at + len(size[0])
        at = first + int(size[0])
        if at > len(name):
            return name
        parts.append(name[first:at])
    rest = name[at + 1:]
    rest = re.sub(r"^\.llvm\.[0-9A-F@]*$", "", rest)
    if not parts or name[at:at + 1] != "E" or (rest and not (rest.startswith(".") and re.fullmatch("[!-~]*", rest))):
        return name
    if len(parts) > 1 and re.fullmatch("h[0-9a-fA-F]{16}", parts[-1]):
        parts.pop()
    return "::".join(map(rust_part, parts)) + rest


def function_text(it: Tree) -> str:
    return f"{it.get('space', 'func')} {it['index']}" + ("" if it["name"] is None else " " + text(rust_name(it["name"])))


def caller_lines(callers: Tree | None) -> Iterator[str]:
    if callers:
        for it in callers["first"]:
            yield "  called by " + function_text(it)
        more = callers["count"] - len(callers["first"])
        if more:
            yield f"  called by {more} more"


#: A line, and the position of the module and of the item that it shows, if it shows one.
Step = tuple[str, Optional[tuple[int, int]]]


def root_steps(tree: Tree, module: Tree, root: Tree, of_component: bool) -> Iterator[Step]:
    """Where a path begins; one of an adapter may have the path to the main module's import before it."""
    kind, adapter = root["kind"], module["adapter"]
    main = "" if not of_component else "main " if adapter is None else f"adapter {word(adapter)} "
    if module["adapter"] is not None and kind == "export":
        if root["main"] is not None:
            yield from steps_to(tree, 0, root["main"], of_component)
            yield f"  main imports {word(module['adapter'])} {word(root['name'])}", None
        yield f"  adapter {word(module['adapter'])} exports {word(root['name'])}", None
    elif kind == "unreached":
        yield "  main never uses it", None
    elif kind == "unread":
        yield f"  main is not followed: {root['body']}", None
    elif kind == "export":
        yield f"  main exports {word(root['name'])}" if of_component else f"  export {text(root['name'])}", None
    else:
        yield f"  {main}start" if kind == "start" else f"  {main}fills {root['space']} {root['index']}", None


def steps_to(tree: Tree, number: int, item: int, of_component: bool) -> Iterator[Step]:
    """The path to an item of a module; nothing, if there is none."""
    module, items, at = tree["modules"][number], [], item
    while at is not None:
        items.append(at)
        at = module["items"][at]["from"]
    first = module["items"][items[-1]]
    if first["root"] is None:
        return
    root = module["roots"][first["root"]]
    yield from root_steps(tree, module, root, of_component)
    if root["kind"] not in ("unreached", "unread"):
        for at in reversed(items):
            it = module["items"][at]
            for line in caller_lines(it.get("callers") if it["from"] is not None else None):
                yield line, None
            yield ("* " if it.get("only") else "  ") + function_text(it), (number, at)


def module_text(tree: Tree, number: int) -> str:
    adapter = tree["modules"][number]["adapter"]
    return "main" if adapter is None else f"adapter {word(adapter)}"


def shared(tree: Tree, steps: list[Step], shown: set[tuple[int, int]], of_component: bool) -> Iterator[str]:
    """The lines of a path; its beginning up to the last item that has a line above is one line."""
    last = max((n for n, (_, it) in enumerate(steps) if it in shown), default=None)
    if last is not None:
        line, it = steps[last]
        yield f"  as above to {line[2:]}" + (f" of {module_text(tree, it[0])}" if of_component and it else "")
        steps = steps[last + 1:]
    for line, it in steps:
        yield line
        if it:
            shown.add(it)


def way_lines(tree: Tree, way: Tree, shown: set[tuple[int, int]], of_component: bool) -> Iterator[str]:
    is_for_types, of, steps = way["name"] is None, way["import"], []
    if way["item"] is not None:
        steps = list(steps_to(tree, way["module"], way["item"], of_component))
    if way["interface"] is None:
        is_for_types = False
        yield function_text(tree["modules"][way["module"]]["items"][way["item"]])
    else:
        yield word(way["interface"]) + (": only its types are used" if is_for_types else f" {word(way['name'])}")
    if of and way["module"] is None:
        yield f"  {of['module']} {word(of['name'])}"
    yield from shared(tree, [("  " + line[2:], it) for line, it in steps] if is_for_types else steps, shown, of_component)
    if of and way["module"] is not None and of_component:
        yield f"  {module_text(tree, way['module'])} imports {word(of['module'])} {word(of['name'])}"
    if way["type"] is not None:
        yield f"  type {word(way['type'])}"


def lines(tree: Tree, of_component: bool) -> Iterator[str]:
    """The lines of a tree: those of wcplan and of `wcwhy --adapt` for a component, else those of wcwhy for one module."""
    shown: set[tuple[int, int]] = set()
    for way in tree["ways"]:
        if way["item"] is None and not of_component:
            yield f"{word(way['interface'])} {word(way['name'])}: not reached"
        else:
            yield from way_lines(tree, way, shown, of_component)


def asks(key: str, module: str, name: str) -> bool:
    """Whether `KEY` or `KEY=NAME` asks for an import: by its module or by the package of that, with the version or without."""
    of, has_name, wanted = key.partition("=")
    unversioned, at, version = module.partition("@")
    package, is_interface, _ = unversioned.partition("/")
    keys = {module, unversioned} | ({package, package + at + version} if is_interface else set())
    return of in keys and (not has_name or wanted == name)


def numbered(imports: list[Tree]) -> Iterator[tuple[Tree, tuple[str, int]]]:
    """The imports, each with its item: its kind, and its number among those of the kind."""
    counts: dict[str, int] = {}
    for it in imports:
        number = counts[it["kind"]] = counts.get(it["kind"], -1) + 1
        yield it, (it["kind"], number)


#: The path to each item of a module that has one.
Paths = dict[tuple[str, int], Sequence[Tree]]


def paths_of(wasm: Bytes, exports: Sequence[str], keys: Sequence[str]) -> Paths:
    found = [it["steps"] for it in paths(wasm, exports, keys)]
    return {(it[-1]["space"], it[-1]["index"]): it for it in found}


class Module:
    """A module of a tree that is made of paths."""

    def __init__(self, adapter: Optional[str], wasm: Bytes, exports: Sequence[str], keys: Sequence[str]) -> None:
        self.roots: list[Tree] = []
        self.items: list[Tree] = []
        self.places: dict[tuple[str, int], int] = {}
        self.tree = {"adapter": adapter, "roots": self.roots, "items": self.items}
        self.imports = scan(wasm)["imports"]
        self.steps = paths_of(wasm, exports, keys)

    def path(self, steps: Sequence[Tree], **root: Any) -> int:
        """Puts a path into the tree, each item once; the position of its last item."""
        at = None
        for it in steps[1:]:
            key = it["space"], it["index"]
            if key not in self.places:
                if at is None:
                    self.roots.append({**steps[0], **root})
                first = {"root": len(self.roots) - 1, "from": None} if at is None else {"root": None, "from": at}
                self.places[key] = len(self.items)
                self.items.append({**it, **first})
            at = self.places[key]
        assert at is not None
        return at


def always_needed(wasm: Bytes, asked: Sequence[str]) -> list[str]:
    """The exports that an adapter has to have whatever the main module imports, without a world, and those that are asked for."""
    return [*(it["name"] for it in scan(wasm)["exports"]
              if "#" in it["name"] or it["name"].startswith("cm32p2") or it["name"] in REALLOCS
              or NEEDED.get(it["name"]) in ((it["kind"], it["type"]), (it["kind"], None))), *asked]


def required(main: list[Tree], name: str, wasm: Bytes, asked: Sequence[str]) -> list[str]:
    """The exports of an adapter that are required of it, as wcwhy has them without a world; none, if it is left out."""
    imported = [it["name"] for it in main if it["module"] == name and it["kind"] == "func"]
    if not imported and not asked and not any("#" in it["name"] for it in scan(wasm)["exports"]):
        return []
    return list(dict.fromkeys([*imported, *always_needed(wasm, asked)]))


class Asked:
    """What is asked for: imports of these keys, or all. Of each key an import has to be there."""

    def __init__(self, keys: Sequence[str]) -> None:
        self.keys, self.missing = keys, dict.fromkeys(keys)

    def has(self, it: Tree) -> bool:
        found = [key for key in self.keys if asks(key, it["module"], it["name"])]
        for key in found:
            self.missing.pop(key, None)
        return bool(found) or not self.keys

    def end(self) -> None:
        for key in self.missing:
            raise Refused(f"no import {text(key.replace('=', ' ', 1))}")


def way_to(it: Tree, module: int, item: int | None) -> Tree:
    of = {"module": it["module"], "name": it["name"]}
    return {"interface": of["module"], "name": of["name"], "module": module, "item": item, "import": of, "type": None}


def own_tree(wasm: Bytes, exports: Sequence[str], keys: Sequence[str]) -> Tree:
    """The tree of the paths in one module."""
    module, asked, ways = Module(None, wasm, exports, keys), Asked(keys), []
    for it, at in numbered(module.imports):
        steps = module.steps.get(at)
        if asked.has(it) and (steps or keys):
            ways.append(way_to(it, 0, module.path(steps) if steps else None))
    asked.end()
    return {"modules": [module.tree], "ways": ways}


#: The name of an import of the main module, which an adapter exports, and the path to it.
Link = tuple[str, Sequence[Tree]]
#: A path in an adapter, and the one in the main module before it.
Through = tuple[Sequence[Tree], Optional[Sequence[Tree]]]


def through(wasm: Bytes, always: Sequence[str], links: Sequence[Link]) -> dict[tuple[str, int], Through]:
    """The path to each import of an adapter that has one. Those from an export that is always needed come first, then those from
    the main module's exports or its start, from its segments, and from nowhere; of each the shortest."""
    found: dict[tuple[str, int], Any] = {at: ((-1, 0), it, None) for at, it in paths_of(wasm, always, ()).items()} if always else {}
    own = {name: paths_of(wasm, [name], ()) for name, _ in links}
    for name, before in links:
        rank = {"fills": 1, "unreached": 2}.get(before[0]["kind"], 0)
        for at, steps in own[name].items():
            key = rank, len(before) + len(steps)
            if at not in found or key < found[at][0]:
                found[at] = key, steps, before
    return {at: (steps, before) for at, (_, steps, before) in found.items()}


def component_tree(wasm: Bytes, adapters: Sequence[Named], exports: Sequence[str], keys: Sequence[str]) -> Tree:
    """The tree of the paths through a main module and its adapters, without a world. What they import of each other is shown
    as no end of a path, nor is an adapter's memory."""
    main, asked, names = Module(None, wasm, exports, ()), Asked(keys), {name for name, _, _ in adapters}
    modules, ways = [main], []
    links: dict[str, list[Link]] = {}
    for it, at in numbered(main.imports):
        steps = main.steps.get(at) or [{"kind": "unreached"}, {"space": at[0], "index": at[1], "name": None}]
        if it["module"] in names:
            if it["kind"] == "func":
                links.setdefault(it["module"], []).append((it["name"], steps))
        elif it["module"] != MAIN and asked.has(it):
            ways.append(way_to(it, 0, main.path(steps)))
    for name, content, more in adapters:
        try:
            needed = required(main.imports, name, content, more)
            if not needed:
                continue
            module = Module(name, content, needed, ())
        except Fault as why:
            raise Refused(f"Adapter `{text(name)}`: {why}") from why
        found = through(content, always_needed(content, more), links.get(name, ()))
        for it, at in numbered(module.imports):
            is_memory = (it["module"], it["name"], it["kind"]) == ("env", "memory", "memory")
            if it["module"] != MAIN and not is_memory and asked.has(it) and at in found:
                steps, before = found[at]
                ways.append(way_to(it, len(modules), module.path(steps, main=main.path(before) if before else None)))
        modules.append(module)
    asked.end()
    return {"modules": [it.tree for it in modules], "ways": ways}
