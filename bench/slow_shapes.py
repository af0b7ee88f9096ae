"""Writes modules, worlds and messages, for slow_cases.py."""
import fcntl
import itertools
import json
import os
import pathlib
import sys

TOP = pathlib.Path(__file__).resolve().parent.parent
sys.path.append(str(TOP / "checks"))
from module_bytes import HEADER, name, number, section, vector



def own_folder(path):
    """A folder at this path, or this path and a number: the first that no other run uses. It is this run's until its end."""
    for at in itertools.count(1):
        folder = path if at == 1 else path.with_name("%s-%d" % (path.name, at))
        folder.mkdir(parents=True, exist_ok=True)
        lock = os.open(folder, os.O_RDONLY)
        try:
            fcntl.flock(lock, fcntl.LOCK_EX | fcntl.LOCK_NB)
            return folder
        except BlockingIOError:
            os.close(lock)


FOLDER = own_folder(TOP / "bench" / "data" / "slow-inputs")
FILES = "worlds.json", "main.wasm", "adapter.wasm", "out.wasm", "rows", "message.json", "modules"
WORLDS, MAIN, ADAPTER, OUT, ROWS, MESSAGE, MODULES = (str(FOLDER / file) for file in FILES)


def write(path, content):
    with open(path, "wb") as file:
        file.write(content)


def signature(params=b"", results=b""):
    return b"\x60" + vector([bytes([ty]) for ty in params]) + vector([bytes([ty]) for ty in results])


def core(path, imports=(), exports=(), types=(signature(),), defined=(), memory=False, codes=()):
    """Writes a module: its imports are functions, of a module, a name and a type; its exports are names and functions.
    Functions have these types and codes, or do nothing."""
    parts = [section(1, vector(types))]
    parts.append(section(2, vector([name(of) + name(text) + b"\0" + number(ty) for of, text, ty in imports])))
    parts.append(section(3, vector([number(ty) for ty in defined])))
    named = [name(text) + b"\0" + number(index) for text, index in exports]
    if memory:
        parts.append(section(5, b"\1\0\1"))
        named.append(name("memory") + b"\2\0")
    parts.append(section(7, vector(named)))
    codes = list(codes) + [b""] * (len(defined) - len(codes))
    parts.append(section(10, vector([number(len(code) + 2) + b"\0" + code + b"\x0b" for code in codes])))
    module = HEADER + b"".join(parts)
    write(path, module)
    return module


def calls(count):
    """The code that calls each of the first functions."""
    return b"".join(b"\x10" + number(index) for index in range(count))


def function(text, params=()):
    held = [{"name": "p%d" % at, "type": ty} for at, ty in enumerate(params)]
    return {"name": text, "kind": "freestanding", "params": held}


def interface(text, functions=(), types=None):
    return {"name": text, "types": types or {}, "functions": {held["name"]: held for held in functions}, "package": 0}


def typed(kind, text=None, owner=None):
    return {"name": text, "kind": kind, "owner": owner}


def imported(index=0, key=None):
    """The interface of an index, under its own id or another key."""
    return {key or "interface-%d" % index: {"interface": {"id": index}}}


def every(count, make=imported):
    """What all of so many make, together."""
    return {key: held for index in range(count) for key, held in make(index).items()}


def resolved(imports=None, exports=None, interfaces=(), types=(), package="my:p@1.0.0"):
    """A document with one package, which has one world, and the interfaces by their names."""
    world = {"name": "w", "imports": imports or {}, "exports": exports or {}, "package": 0}
    listed = {held["name"]: index for index, held in enumerate(interfaces)}
    packages = [{"name": package, "interfaces": listed, "worlds": {"w": 0}}]
    return {"worlds": [world], "interfaces": list(interfaces), "types": list(types), "packages": packages}


def plan(document, *options):
    """Writes worlds, and gives the arguments that plan the component of them and the main module."""
    write(WORLDS, json.dumps(document, separators=(",", ":")).encode())
    return [WORLDS, "w", MAIN, *options]


def track(at):
    """Ids of one interface, whose versions are of one track."""
    return "my:p/i@1.0.%d" % at


def row(call, lines):
    write(ROWS, "".join(line + "\n" for line in ["row r", "call " + call, *("in " + line for line in lines)]).encode())
    return ["-"]


def message(document, module, **members):
    """Writes a message and its modules, the main module and then those of adapters, for message.c."""
    others = b"".join(bytes.fromhex(held["bytes"]) for held in members.get("adapters", ()))
    for held in members.get("adapters", ()):
        held["length"] = len(bytes.fromhex(held.pop("bytes")))
    members = {"adapters": [], **members}
    text = json.dumps({"resolve": document, "world": "w", "length": len(module), **members}, separators=(",", ":"))
    write(MESSAGE, text.encode())
    write(MODULES, module + others)
    return [MESSAGE, MODULES]
