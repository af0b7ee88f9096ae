"""Core WebAssembly modules made ready to be parts of a component, and why a component imports what it imports.

The functions are calls of a library that is proved to meet its contracts for all inputs. They take modules as bytes, and
give bytes and plain objects:

    >>> import nuigatre
    >>> trimmed = nuigatre.trim(adapter, ["fd_write"], realloc="cabi_realloc")

Where there is no result they raise an exception: :class:`Fault` with the fault's number, its text and its place,
:class:`BadArgument`, or :class:`OutOfMemory`. They keep nothing between calls, and may be called by several threads at once;
other threads of Python run meanwhile.
"""

from __future__ import annotations

import json
import operator
import re
import sys
from collections.abc import Iterable, Mapping, Sequence
from dataclasses import dataclass, field
from typing import TYPE_CHECKING, Any, TypedDict, Union

from ._calls import FAULTS, NUMBERS, STATUSES
from ._library import ROOM, Answer, NoLibrary, asked, is_proved
from ._places import message

if sys.version_info >= (3, 11):
    from typing import Unpack
elif TYPE_CHECKING:
    from typing_extensions import Unpack

__version__ = "0.5.0"
__all__ = ["Adapter", "BadArgument", "Chains", "Error", "Fault", "Function", "Item", "NoLibrary", "Options", "OutOfMemory", "Rename",
           "World",
           "component_imports", "component_paths", "dedupe", "fault_text", "is_proved", "paths", "plan", "planned_world", "scan", "trim",
           "validate", "validated_module", "why", "world"]

# what a message begins with: the worlds come next
HEAD = b'{"resolve":'
# how a path begins that leads into the worlds of a message, by itself or in the text of a fault
IN_WORLDS = re.compile(r"^(Json: )?resolve(\.|: |$|(?=\[))")
# the number of the fault of a message that is not JSON
NOT_JSON = FAULTS["message"]["JSON"] + 256 * FAULTS["json"]["NOT_JSON"]

# the types of values, by their bytes
TYPES = {"i32": 0x7F, "i64": 0x7E, "f32": 0x7D, "f64": 0x7C, "v128": 0x7B, "funcref": 0x70, "externref": 0x6F}

#: Bytes of a module.
Bytes = Union[bytes, bytearray, memoryview]
#: Resolved worlds as JSON: a text, its bytes, or the object that it is of.
Worlds = Union[str, Bytes, Mapping[str, Any]]


class Options(TypedDict, total=False):
    """The other members of a message, as crates/wc_json/MODEL.md of the repository says: the keys that the main module has to
    export, the canonical options of lowered functions, and so on."""

    exports: Union[Sequence[str], None]
    options: Union[Sequence[Mapping[str, Any]], None]
    reject_legacy_names: bool
    realloc_via_memory_grow: bool
    task_hook: Union[str, None]


class Error(Exception):
    """What the functions of this module raise."""


class Fault(Error):
    """There is no result, because of a fault in what was passed. As a string it is a line with the fault's text and its place,
    as ``World: Main: MissingWorldExport: missing export "is-ready"``.

    :ivar call: the call, as ``trim``
    :ivar number: the fault's number, as the header ``nuigatre.h`` says: 256 times the number of a fault that it carries is
        added
    :ivar text: the fault's text, as ``World: Main: MissingWorldExport``
    :ivar place: what the fault is about, as the import or the byte, an object whose ``kind`` says what it is; or None
    :ivar missing: of ``trim``, ``why`` and ``paths``, the name of the export that the module lacks; else None
    """

    def __init__(self, call: str, number: int, text: str, place: dict[str, Any] | None, missing: str | None) -> None:
        super().__init__(message(text, place, missing))
        self.call, self.number, self.text, self.place, self.missing = call, number, text, place, missing

    def __reduce__(self) -> tuple[Any, ...]:
        return type(self), (self.call, self.number, self.text, self.place, self.missing), self.__dict__


class BadArgument(Error, ValueError):
    """The call has no result for such arguments: no name, a name that is not Unicode, or a number that is too large."""


class OutOfMemory(Error, MemoryError):
    """An allocation failed."""


@dataclass(frozen=True)
class Rename:
    """A renamed import: its module, its original name, and its new one."""

    module: str
    original: str
    name: str


@dataclass(frozen=True)
class Item:
    """An item of a module: ``space`` is ``type``, ``func``, ``table``, ``memory`` or ``global``."""

    space: str
    index: int


@dataclass(frozen=True)
class Chains:
    """The shortest chains from required exports to imports, as a tree.

    :ivar items: the items that are reached
    :ivar finders: of each item the position of the one that first names it; its own position if an export does
    :ivar exports: the names of the exports that the first items have
    :ivar imports: of each import of the adapter the position of its item; None if it is not reached
    """

    items: list[Item]
    finders: list[int]
    exports: list[str]
    imports: list[int | None]

    def __repr__(self) -> str:
        reached = sum(it is not None for it in self.imports)
        return f"<Chains from {', '.join(map(repr, self.exports))} to {reached} of {len(self.imports)} imports>"

    def to_import(self, number: int) -> tuple[str, list[Item]] | None:
        """The chain to an import by its number: the export, and the items from that export's to the import's."""
        at = self.imports[number]
        if at is None:
            return None
        chain = [at]
        while self.finders[chain[-1]] != chain[-1]:
            chain.append(self.finders[chain[-1]])
        return self.exports[chain[-1]], [self.items[it] for it in reversed(chain)]


@dataclass(frozen=True)
class Adapter:
    """An adapter of a component.

    :ivar name: the name under which the main module imports it
    :ivar wasm: its bytes
    :ivar exports: the keys of the world's exports that it has to export, as ``wasi:cli/run@0.2.6``
    :ivar library_info: of a library, how it is instantiated
    """

    name: str
    wasm: Bytes
    exports: Sequence[str] = ()
    library_info: Any = None

    def __repr__(self) -> str:
        more = "" if self.library_info is None else ", a library"
        return f"<Adapter {self.name!r} of {_size(self.wasm)}, exports {list(self.exports)!r}{more}>"


@dataclass(frozen=True)
class Function:
    """A function that is required of an adapter: its name, and the types of its parameters and results, which are ``i32``,
    ``i64``, ``f32``, ``f64``, ``v128``, ``funcref`` or ``externref``."""

    name: str
    params: Sequence[str] = ()
    results: Sequence[str] = ()

    def text(self) -> bytes:
        """The name and the type, as the binary format has them."""
        name, kinds = _name(self.name), (self.params, self.results)
        return _vector([bytes([it]) for it in name]) + b"\x60" + b"".join(_vector([bytes([TYPES.get(it, 0)]) for it in kind]) for kind in kinds)


@dataclass(frozen=True)
class World:
    """A component's world.

    :ivar record: the record, whose members crates/wc_record/README.md of the repository lists
    :ivar main: the main module, with its repeated imports renamed
    :ivar adapters: the trimmed adapters and the libraries that are needed, by their names
    """

    record: dict[str, Any]
    main: bytes
    adapters: dict[str, bytes] = field(default_factory=dict)

    def __repr__(self) -> str:
        adapters = "".join(f", adapter {name!r} of {_size(wasm)}" for name, wasm in self.adapters.items())
        return f"<World: main module of {_size(self.main)}{adapters}; record of {', '.join(self.record)}>"


def dedupe(wasm: Bytes) -> tuple[bytes, list[Rename]]:
    """Renames imports, so that no two have one module and one name; the first keeps its name.

    :return: the module, and the renames. Where no import repeats, the module is the one that was passed.
    """
    content = _bytes(wasm)
    answer = call("dedupe", {"wasm": content}, len(content) + ROOM)
    if answer.status == STATUSES["SAME"]:
        return content, []
    return answer.content[: answer.module_length], list(_renames(answer.content, answer.module_length))


def trim(adapter: Bytes, required: Iterable[str], *, realloc: str | None = None, page_size_log2: int = 16) -> bytes:
    """Trims an adapter to what its exports of these names reach.

    :param required: the names, at least one
    :param realloc: under which name the main module exports a realloc, if it does
    :param page_size_log2: of the main module's memory; a page has two to this power bytes
    """
    content = _bytes(adapter)
    given = {"wasm": content, "required": _names(required), "has_realloc": realloc is not None,
             "realloc": _name(realloc or ""), "page_size_log2": _within(page_size_log2, 32)}
    return call("trim", given, len(content) + ROOM).content


def why(adapter: Bytes, required: Iterable[str]) -> Chains:
    """Says why an adapter imports what it does, where its exports of these names are required."""
    found = json.loads(call("why", {"wasm": _bytes(adapter), "required": _names(required)}).content)
    items = [Item(it["space"], it["index"]) for it in found["items"]]
    return Chains(items, found["finders"], found["exports"], found["imports"])


def scan(wasm: Bytes) -> dict[str, Any]:
    """Lists what a module imports and exports, with types, and how its functions are named.

    :return: an object with ``imports``, each with ``module``, ``name``, ``kind`` and ``type``; ``exports``, each with ``name``,
        ``kind``, ``index`` and ``type``; and ``function_names``, each with ``index`` and ``name``. A kind is ``func``,
        ``table``, ``memory`` or ``global``; an index is that of the item among all of its kind.
    """
    content = _bytes(wasm)
    found: dict[str, Any] = json.loads(call("scan", {"wasm": content}, 2 * len(content) + ROOM).content)
    return found


def paths(wasm: Bytes, exports: Iterable[str] = (), imports: Iterable[str] = ()) -> list[dict[str, Any]]:
    """The paths to the imports of a module, main modules too: of each the shortest, and of several the first.

    :param exports: the exports at which paths may begin; all, if there are none. They may begin at the start function too; and
        only where none of these leads to an import, at what an active segment fills.
    :param imports: what asks for imports: ``KEY``, the name of a module or of a package of interfaces, with its version or
        without, or ``KEY=NAME``; all, if there are none
    :return: the paths, in the order of the imports, without those to which none leads. Each has ``interface``, which is the
        import's module, ``name``, and ``steps``, whose first is where the path begins: its ``kind`` is ``export``, ``start`` or
        ``fills``. The others are items, with ``space``, ``index`` and the ``name`` of a function, or None. Where imports are
        asked for, they have ``only``: whether each path to any of these imports goes through the item, and it is none of them.
    """
    given = {"wasm": _bytes(wasm), "exports": _names(exports), "imports": _names(imports)}
    found: list[dict[str, Any]] = json.loads(call("paths", given).content)["ways"]
    return found


def world(worlds: Worlds, world: str | int, main: Bytes, adapters: Iterable[Adapter] = (), **options: Unpack[Options]) -> World:
    """Makes the world of a component.

    :param worlds: the resolved worlds as JSON, as ``wasm-tools component wit --json`` prints them
    :param world: the world, by its name or its index
    :param main: the main module
    :param adapters: the adapters and the libraries
    :param options: other members of the message: ``exports``, ``options``, ``reject_legacy_names``,
        ``realloc_via_memory_grow`` and ``task_hook``, as crates/wc_json/MODEL.md of the repository says
    """
    given = _message("world", worlds, world, main, adapters, options)
    return _world(call("world", given, len(given["modules"]) + 4 * ROOM))


def plan(worlds: Worlds, world: str | int, main: Bytes, adapters: Iterable[Adapter] = (), **options: Unpack[Options]) -> list[dict[str, Any]]:
    """Makes the plan of a component: what each function that its core modules import needs. The parameters are those of
    :func:`world`."""
    given = _message("plan", worlds, world, main, adapters, options)
    found: list[dict[str, Any]] = json.loads(call("plan", given).content)
    return found


def planned_world(worlds: Worlds, world: str | int, main: Bytes, adapters: Iterable[Adapter] = (), **options: Unpack[Options]) -> World:
    """Makes both at once: the record has the plan as its member ``plan``. The parameters are those of :func:`world`."""
    given = _message("planned_world", worlds, world, main, adapters, options)
    return _world(call("planned_world", given, len(given["modules"]) + 4 * ROOM))


def component_paths(worlds: Worlds, world: str | int, main: Bytes, adapters: Iterable[Adapter] = (), *, key: str, **options: Unpack[Options]) -> dict[str, Any]:
    """Says why a component imports what a key asks about.

    :param key: ``all``; ``$root``, for what is the world's own; or an interface, a package, a function or a type that the world
        imports, with its version or without
    :return: what ``wcplan --why KEY --json`` prints. The other parameters are those of :func:`world`.
    """
    given = {**_message("component_paths", worlds, world, main, adapters, options), "key": _name(key)}
    found: dict[str, Any] = json.loads(call("component_paths", given).content)
    return found


def component_imports(worlds: Worlds, world: str | int, main: Bytes, adapters: Iterable[Adapter] = (), **options: Unpack[Options]) -> list[dict[str, Any]]:
    """Lists what a component imports of each interface.

    :return: the interfaces, as ``wcplan --imports --json`` prints them: each with ``interface``; ``kind``, which is ``main``,
        ``goes``, ``types`` or ``stays``; and ``modules``, which import it. The parameters are those of :func:`world`.
    """
    given = _message("component_imports", worlds, world, main, adapters, options)
    found: list[dict[str, Any]] = json.loads(call("component_imports", given).content)["imports"]
    return found


def validate(worlds: Worlds, world: str | int, main: Bytes, adapters: Iterable[Adapter] = (), *, adapter: str | None = None,
             **options: Unpack[Options]) -> None:
    """Validates the main module of a component, or the adapter of a name, and returns if it is valid. The other parameters
    are those of :func:`world`."""
    given = _message("validate", worlds, world, main, adapters, options)
    call("validate", {**given, "has_adapter": adapter is not None, "adapter": _name(adapter or "")})


def validated_module(worlds: Worlds, world: str | int, main: Bytes, adapters: Iterable[Adapter] = (), *, adapter: str | None = None,
                     required: Iterable[Function] = (), **options: Unpack[Options]) -> dict[str, Any]:
    """Validates the main module of a component, or the adapter of a name for the functions that are required of it.

    :return: what it imports and exports, as the record of a world has it of a module. The other parameters are those of
        :func:`world`.
    """
    given = {**_message("validated_module", worlds, world, main, adapters, options), "has_adapter": adapter is not None,
             "adapter": _name(adapter or ""), "required": _vector([it.text() for it in required])}
    found: dict[str, Any] = json.loads(call("validated_module", given).content)
    return found


def fault_text(call: str, number: int) -> str | None:
    """The text of a fault of ``dedupe``, ``trim``, ``why``, ``scan`` or ``paths`` by its number; None if there is none."""
    if call not in NUMBERS:
        raise BadArgument(f"{call} is none of {', '.join(NUMBERS)}")
    answer = asked("fault_text", {"call": NUMBERS[call], "number": _within(number, 32)})
    if answer.status == STATUSES["MEMORY"]:
        raise OutOfMemory("out of memory")
    return answer.content.decode() if answer.status == STATUSES["DONE"] else None


def call(name: str, given: dict[str, Any], room: int = ROOM) -> Answer:
    """One call of the library by its name; what has no result is raised."""
    answer = asked(name, given, room)
    if answer.status == STATUSES["FAULT"]:
        raise _fault(name, given, answer)
    if answer.status == STATUSES["MEMORY"]:
        raise OutOfMemory("out of memory")
    if answer.status > STATUSES["SAME"]:
        raise BadArgument(f"{name} has no result for these arguments")
    return answer


def _fault(name: str, given: dict[str, Any], answer: Answer) -> Fault:
    split = 0 if name in NUMBERS else answer.position
    text = fault_text(name, answer.fault) if name in NUMBERS else answer.content[:split].decode()
    place = json.loads(answer.content[split:]) if answer.length > split else None
    # a byte or a path of the message is one of the worlds, which are its first member
    if place and place["kind"] == "json-byte":
        place["byte"] -= len(HEAD)
    if place and place["kind"] == "json-path":
        text, place["path"] = IN_WORLDS.sub(r"\1", text or ""), IN_WORLDS.sub("", place["path"])
    # of an export that is missing the answer has the position among the names that are passed
    names = given.get("required", given.get("exports"))
    is_missing = name in NUMBERS and names is not None and answer.fault == FAULTS["gc"]["MISSING_EXPORT"]
    return Fault(name, answer.fault, text or "", place, names[answer.position].decode() if names and is_missing else None)


def _within(number: int, bits: int) -> int:
    """A number, unless the library has no such one: ctypes would cut it."""
    if not 0 <= operator.index(number) < 1 << bits:
        raise BadArgument(f"{number} is no number of {bits} bits")
    return number


def _bytes(given: Bytes) -> bytes:
    """The bytes of a module. A number or a path is refused: `bytes` would make other bytes of it."""
    try:
        return given if isinstance(given, bytes) else memoryview(given).tobytes()
    except TypeError:
        raise TypeError(f"a module is bytes, a bytearray or a memoryview, not {_kind(given)}: Path.read_bytes() gives bytes") from None


def _size(wasm: Bytes) -> str:
    return f"{memoryview(wasm).nbytes} bytes" if isinstance(wasm, (bytes, bytearray, memoryview)) else repr(wasm)


def _kind(given: Any) -> str:
    return type(given).__name__


def _name(text: str) -> bytes:
    if not isinstance(text, str):
        raise TypeError(f"a name is a str, not {_kind(text)}")
    # a text with half of a surrogate pair is passed as what the library refuses
    return text.encode("utf-8", "surrogatepass")


def _listed(texts: Iterable[str]) -> list[str]:
    if isinstance(texts, (str, bytes)):
        raise TypeError(f"names are a list of str, not {_kind(texts)}")
    return list(texts)


def _names(texts: Iterable[str]) -> list[bytes]:
    return [_name(it) for it in _listed(texts)]


def _json(value: Any) -> bytes:
    try:
        return json.dumps(value, ensure_ascii=False, allow_nan=False).encode()
    except ValueError as why:
        raise BadArgument(f"no JSON has this: {why}") from why


def _vector(items: Sequence[bytes]) -> bytes:
    """How many they are, in LEB128, and then these."""
    count, text = len(items), b""
    while count >= 128:
        text += bytes([count & 127 | 128])
        count >>= 7
    return text + bytes([count]) + b"".join(items)


def _renames(content: bytes, at: int) -> Iterable[Rename]:
    """The renames after the module."""

    def number() -> int:
        nonlocal at
        value = shift = 0
        while True:
            byte = content[at]
            at += 1
            value |= (byte & 127) << shift
            shift += 7
            if byte < 128:
                return value

    def name() -> str:
        nonlocal at
        length = number()
        at += length
        return content[at - length : at].decode()

    for _ in range(number()):
        yield Rename(name(), name(), name())


def _worlds(call: str, given: Worlds) -> bytes:
    """The worlds as a JSON text. One that is passed stays as it is: reading it here would lose members that are there twice,
    which is a fault. It has to be one JSON value, so that nothing of it becomes another member of the message: the library is
    asked, with the text as a message, and says where this stops being JSON."""
    if isinstance(given, Mapping):
        return _json(dict(given))
    try:
        text = _name(given) if isinstance(given, str) else memoryview(given).tobytes()
    except TypeError:
        raise TypeError(f"worlds are JSON in a str or in bytes, or an object, not {_kind(given)}") from None
    answer = asked("world", {"message": text, "modules": b""})
    if answer.status == STATUSES["MEMORY"]:
        raise OutOfMemory("out of memory")
    if answer.status == STATUSES["FAULT"] and answer.fault == NOT_JSON:
        at = answer.position
        raise Fault(call, NOT_JSON, answer.content[:at].decode(), json.loads(answer.content[at:]), None)
    return text


def _message(call: str, worlds: Worlds, world: str | int, main: Bytes, adapters: Iterable[Adapter],
             options: Options) -> dict[str, bytes]:
    """The message of a component, and the bytes of all of its modules."""
    for name in options.keys() - Options.__annotations__.keys():
        raise TypeError(f"{call}() got an unexpected keyword argument {name!r}: options are {', '.join(Options.__annotations__)}")
    listed = list(adapters)
    modules = [_bytes(main), *(_bytes(it.wasm) for it in listed)]
    parts = [{"name": it.name, "length": len(wasm), "exports": _listed(it.exports), "library_info": it.library_info}
             for it, wasm in zip(listed, modules[1:])]
    rest = _json({**options, "world": world, "length": len(modules[0]), "adapters": parts})
    return {"message": HEAD + _worlds(call, worlds) + b"," + rest[1:], "modules": b"".join(modules)}


def _world(answer: Answer) -> World:
    """The main module comes first, and then the adapters in the record's order."""
    record = json.loads(answer.content[answer.module_length :])
    at = answer.module_length - sum(it["length"] for it in record["adapters"])
    made = World(record, answer.content[:at])
    for it in record["adapters"]:
        made.adapters[it["name"]] = answer.content[at : at + it["length"]]
        at += it["length"]
    return made
