"""The shared library, and one call of it: by the table of its header, so that no call is written down here."""

from __future__ import annotations

import ctypes
import functools
import os
import secrets
from typing import Any, NamedTuple

from . import _calls

PATH = "NUIGATRE_LIBRARY"
# what is first offered to an answer: the library says where it is too little, and is called again
ROOM = 1 << 16
# the seed of the library's maps, which no answer depends on
SEED = {"seed0": secrets.randbits(64), "seed1": secrets.randbits(64)}

TYPES = {"u64": ctypes.c_uint64, "u32": ctypes.c_uint32, "bool": ctypes.c_bool, "uint32_t": ctypes.c_uint32, "size_t": ctypes.c_size_t}


class AnswerStruct(ctypes.Structure):
    """What a call answers, as the header has it."""

    _fields_ = [(name, TYPES[kind]) for name, kind in _calls.ANSWER]


class Slice(ctypes.Structure):
    """Bytes that are read."""

    _fields_ = [("bytes", ctypes.c_char_p), ("length", ctypes.c_size_t)]


class Answer(NamedTuple):
    """What a call answered; `content` is what it wrote."""

    status: int
    fault: int
    length: int
    module_length: int
    position: int
    content: bytes


class NoLibrary(ImportError):
    """There is no shared library, or one with calls of another form, or without a newer call."""


def argument_types(kind: str) -> list[Any]:
    if kind == "bytes":
        return [ctypes.c_char_p, ctypes.c_size_t]
    if kind == "slices":
        return [ctypes.POINTER(Slice), ctypes.c_size_t]
    if kind == "out":
        return [ctypes.c_char_p, ctypes.c_size_t]
    return [TYPES[kind]]


def words_of(kind: str, given: Any) -> list[Any]:
    """What is passed for a parameter."""
    if kind == "bytes":
        return [given, len(given)]
    if kind == "slices":
        return [(Slice * len(given))(*(Slice(it, len(it)) for it in given)), len(given)]
    return [given]


def symbols_of(name: str) -> tuple[str, str]:
    """The symbols that a name of the library may have: the number of the form may be in it."""
    return f"nuigatre_{name}", f"nuigatre{_calls.ABI}_{name}"


def function_of(loaded: ctypes.CDLL, name: str) -> Any:
    """The function of a call."""
    for symbol in symbols_of(name):
        if hasattr(loaded, symbol):
            return getattr(loaded, symbol)
    raise NoLibrary(f"the library lacks nuigatre_{name}, or is of another form than {_calls.ABI}")


@functools.cache
def library() -> ctypes.CDLL:
    """The shared library: the file that the environment variable NUIGATRE_LIBRARY names, or the one of this package."""
    path = os.environ.get(PATH) or os.path.join(os.path.dirname(os.path.abspath(__file__)), "libnuigatre.so")
    try:
        loaded = ctypes.CDLL(path)
    except OSError as why:
        raise NoLibrary(f"{path} cannot be loaded ({why}): {PATH} can name another file") from why
    for name, call in _calls.CALLS.items():
        # an older library of the form may lack a newer call
        if any(hasattr(loaded, symbol) for symbol in symbols_of(name)):
            function = function_of(loaded, name)
            function.argtypes = [it for _, kind in call["parameters"] for it in argument_types(kind)]
            function.restype = AnswerStruct if call["result"] == "answer" else TYPES[call["result"]]
    form = function_of(loaded, "abi")()
    if form != _calls.ABI:
        raise NoLibrary(f"{path} has the calls of form {form}, and not {_calls.ABI}")
    return loaded


def is_proved() -> bool:
    """Whether the library was proved: one that was not has a symbol that says so."""
    return not any(hasattr(library(), symbol) for symbol in symbols_of("unproved"))


def once(name: str, given: dict[str, Any], room: int) -> Answer:
    """One call, with so much room for its answer."""
    call, out = _calls.CALLS[name], ctypes.create_string_buffer(room)
    words: list[Any] = []
    for of, kind in call["parameters"]:
        words += [out, room] if kind == "out" else words_of(kind, given[of])
    found = function_of(library(), name)(*words)
    is_written = found.length <= room and found.status <= _calls.STATUSES["FAULT"]
    content = memoryview(out)[: found.length].tobytes() if is_written else b""
    return Answer(found.status, found.fault, found.length, found.module_length, found.position, content)


def asked(name: str, given: dict[str, Any], room: int = ROOM) -> Answer:
    """A call; again where there was too little room."""
    whole = {**SEED, **given}
    answer = once(name, whole, room)
    return once(name, whole, answer.length) if answer.length > room else answer
