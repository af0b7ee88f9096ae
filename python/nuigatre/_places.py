"""The words for the place of a fault: those of the Rust crate's Place, with names escaped as wcplan escapes them."""

from __future__ import annotations

import json
from collections.abc import Callable, Sequence
from typing import Any

# how many names of a list are shown
SHOWN = 8

ESCAPES = {"\n": "\\n", "\r": "\\r", "\t": "\\t", "\0": "\\0"}

# the sections by their ids
SECTIONS = ("custom", "type", "import", "function", "table", "memory", "global", "export", "start", "element", "code", "data",
            "data count")

TYPES = {"non-null-funcref": "(ref func)", "non-null-externref": "(ref extern)"}

REPEATED = "Json: repeated member"


def escaped(text: str) -> str:
    """A text without what is invisible, or acts on a terminal: each such character is there by its code."""
    if text.isprintable():
        return text
    return "".join(it if it.isprintable() else ESCAPES.get(it) or f"\\u{{{ord(it):x}}}" for it in text)


def quoted(name: str) -> str:
    return '"' + escaped(name.replace("\\", "\\\\").replace('"', '\\"')) + '"'


def listed(names: Sequence[str]) -> str:
    more = f" and {len(names) - SHOWN} more" if len(names) > SHOWN else ""
    return " ".join(map(quoted, names[:SHOWN])) + more


def section(number: int) -> str:
    return f"{SECTIONS[number]} section" if number < len(SECTIONS) else f"section {number}"


def in_section(number: int) -> str:
    return f"the {section(number)}" if number < len(SECTIONS) else section(number)


def value_type(it: Any) -> str:
    return TYPES.get(it, it) if isinstance(it, str) else f"(ref {'null ' if it['nullable'] else ''}{it['index']})"


def function_type(it: dict[str, Any]) -> str:
    params, results = (list(map(value_type, it[kind])) for kind in ("params", "results"))
    return f"({', '.join(params)}) -> " + (results[0] if len(results) == 1 else f"({', '.join(results)})")


# what a place is, by its kind; of a kind without words the text of the fault says all
WORDS: dict[str, Callable[[dict[str, Any]], str]] = {
    "import": lambda it: f"import {quoted(it['module'])} {quoted(it['name'])}",
    "export": lambda it: f"export {quoted(it['name'])}",
    "missing-export": lambda it: f"missing export {quoted(it['name'])}",
    "missing-function": lambda it: f"missing {quoted(it['module'])} {quoted(it['name'])}",
    "bytes": lambda it: f"byte {it['offset']}" + ("" if it["section"] is None else f", in {in_section(it['section'])}"),
    "section": lambda it: section(it["id"]),
    "body": lambda it: ("" if it["operator"] is None else f"operator {it['operator']} of the ") + f"body of function {it['function']}",
    "page-sizes": lambda it: f"page size {it['own']}, main module's {it['main']}",
    "function": lambda it: "function " + " ".join(quoted(name) for name in (it["interface"], it["name"]) if name is not None),
    "worlds": lambda it: f"worlds {listed(it['worlds'])}" if it["worlds"] else "there is no world",
    "imports": lambda it: f"imports {listed(it['imports'])}" if it["imports"] else "the world imports nothing",
    "world": lambda it: f"world {it['index']}",
    "interface": lambda it: f"interface {it['index']}",
    "type": lambda it: f"type {it['index']}",
    "package": lambda it: f"package {it['index']}",
    "module": lambda it: "",
    "key": lambda it: "",
}


def place_words(place: dict[str, Any]) -> str:
    """The words for a place; of a kind that is not known here they are what the library says."""
    kind = place["kind"]
    if kind not in WORDS:
        return escaped(json.dumps(place))
    words, types = WORDS[kind](place), place.get("types")
    if types:
        words += f", wanted {function_type(types['wanted'])}, found {function_type(types['found'])}"
    return f"{words}, in adapter {quoted(place['adapter'])}" if words and place.get("adapter") is not None else words


def message(text: str, place: dict[str, Any] | None, missing: str | None) -> str:
    """The line of a fault: its text, with the name that it lacks, and its place."""
    line = escaped(text if missing is None else f"{text} `{missing}`")
    if place is None:
        return line
    if place["kind"] == "json-byte":
        return f"{line} at byte {place['byte']}"
    if place["kind"] == "json-path":
        return f"Json: {escaped(place['path'])}: repeated member" if text == REPEATED else line
    words = place_words(place)
    return f"{line}: {words}" if words else line
