#!/usr/bin/env python3
"""Writes rows with random names, made of the naming schemes' own pieces, to standard output.

    checks/random-names.py [COUNT] [SEED] | ./wctests -
    checks/random-names.py --classified [COUNT] [SEED]

Each name is asked of both schemes: on its own, in a world and in an interface, and as a module's name. With --classified the
library is asked for modules that import it, by name and by module. The same count and seed make the same names. Each call only
has to return.
"""
import argparse
import json
import pathlib
import random
import sys
import tempfile
import types

TOP = pathlib.Path(__file__).resolve().parent.parent
sys.path.append(str(TOP / "tests"))
import library
from messages import CALLS
from row_format import LeftOut, Row
from worlds import encoder_of

PIECES = [
    "[async-lower]", "[async-lift]", "[async-lift-stackful]", "[callback]", "[export]", "[cancellable]",
    "[resource-drop]", "[resource-new]", "[resource-rep]", "[task-return]", "[task-cancel]", "[subtask-cancel]",
    "[subtask-drop]", "[backpressure-inc]", "[backpressure-dec]", "[waitable-set-new]", "[waitable-set-wait",
    "[waitable-set-poll", "[waitable-set-drop]", "[waitable-join]", "[error-context-new-",
    "[error-context-debug-message-", "[error-context-drop]", "[context-get-", "[context-set-", "[thread-index]",
    "[thread-new-indirect-v0]", "[thread-resume-later]", "[thread-suspend", "[thread-yield", "-then-resume]",
    "-then-promote]", "[future-", "[stream-", "new-", "read-", "write-", "cancel-read-", "cancel-write-", "forward-",
    "drop-readable-", "drop-writable-", "unit", "utf8", "utf16", "latin1+utf16", "i32", "i64", "f32", "i32-", "i64-",
    "-i32", "-i64", "[method]r.m", "[dtor]", "[", "]", "]]", "-", "+", "_", "|", "||", "#", ".", ":", "/", "@", "$root",
    "env", "__main_module__", "__wasm_get_stack_pointer", "__wasm_set_tls_base", "memory", "cabi_post_",
    "cabi_realloc", "_initialize", "cm32p2", "_ex_", "_drop", "_new", "_rep", "_post", "_dtor", "a:b/c", "my:demo/host",
    "my:demo/host@", "@1.2.3", "@1", "@0.2", "1.0.0-rc.1+x", "host", "both", "r", "f", "guest", "0", "1", "2", "00",
    "+01", "-1", "4294967295", "4294967296", "18446744073709551616", "99999999999999999999999999", " ", ",", "(", ")",
    "\\", '"', "\n", "\t", "\0", "\x7f", "é", "ß", "１", "\u202e", "\U0001f600", "\ufeff",
]

# Functions, a resource, and futures and streams, of a world and of an interface; versions of two kinds.
WORLD = """\
type t0 = stream u8
type t1 = future t0
type t2 r = resource
type t3 s in i0 = resource
type t4 = borrow t3
interface i0 host of p0
  type s t3
  func both: (a: t1) -> t0
  func [method]s.m: method t3 (self: t4)
interface i1
interface i2 c of p1
package p0 my:demo
  interface host i0
package p1 a:b@1.2.3
  interface c i2
world w0 foo
  import i0: interface i0
  import i2: interface i2
  import plain: interface i1
  import host: func (a: t1)
  import r: type t2
  export guest: func () -> t1
  export i2: interface i2
"""

NAMES_IN_A_ROW = 1000

# Modules from which names are imported, of both schemes.
MODULES = ["$root", "[export]$root", "env", "my:demo/host", "[export]a:b/c@1.2.3", "cm32p2", "cm32p2_ex_",
           "cm32p2|my:demo/host", "cm32p2|_ex_a:b/c@1"]


def random_name(source):
    """A name of a few pieces; now and then cut, doubled, or with random characters."""
    name = "".join(source.choice(PIECES) for _ in range(source.choice((1, 1, 2, 2, 3, 3, 4, 5, 8, 13))))
    kind = source.random()
    if kind < 0.1 and name:
        at = source.randrange(len(name))
        name = name[:at] + name[at + 1:]
    elif kind < 0.2:
        at = source.randrange(len(name) + 1)
        name = name[:at] + chr(source.choice((source.randrange(128), source.randrange(0xd800)))) + name[at:]
    elif kind < 0.22:
        name = name * source.randrange(2, 200)
    return name


def quoted(name):
    """A name as a word of a row, which is JSON. A line can't hold a carriage return at its end, so none is made."""
    return json.dumps(name.replace("\r", ""), ensure_ascii=False)


def row(number, call, scheme, lines, fixture=False):
    print("row %s %s %d" % (call, scheme, number))
    print("call %s %s" % (call, scheme))
    if fixture:
        print("with world")
    for line in lines:
        print("in " + line)
    print()


def put_rows(number, names):
    """Writes the rows of these names."""
    names = list(map(quoted, names))
    for scheme in ("standard", "legacy hook"):
        row(number, "names", scheme, names)
        row(number, "function_names", scheme, names)
        row(number, "env_import", scheme, [name + " i32 -> i64" for name in names])
        for where in ("do imports ", "do exports ", "do imports of i0 under i0 "):
            row(number, "payload_intrinsic", scheme, [where + name for name in names], True)
            row(number, "payload_lookup", scheme, [where + name for name in names], True)
        for where in ("do imports ", "do exports "):
            row(number, "module_to_interface", scheme, [where + name for name in names], True)


def classified(source, names, doors):
    """How many imports of these names the library classifies, and how many it refuses."""
    words = ['"%s"' % name.replace("\r", "").replace("\\", "\\\\").replace('"', '\\"').replace("\n", "\\n") for name in names]
    asked = Row("of random names")
    asked.input = WORLD.splitlines() + ["do %s %s i32 -> i32" % (source.choice(MODULES), word) for word in words]
    asked.input += ["do %s f ->" % word for word in words]
    lines = CALLS["classify"](asked, doors)
    refused = sum(": fault " in line for line in lines)
    return len(lines) - refused, refused


def main():
    parser = argparse.ArgumentParser(description=__doc__, formatter_class=argparse.RawDescriptionHelpFormatter)
    parser.add_argument("--classified", action="store_true")
    parser.add_argument("count", nargs="?", type=int, default=100_000, help="how many names: 100,000, if none is given")
    parser.add_argument("seed", nargs="?", type=int, default=1)
    arguments = parser.parse_args()
    count, source = arguments.count, random.Random(arguments.seed)
    sys.stdout.reconfigure(encoding="utf-8", newline="\n")
    batches = ((number, [random_name(source) for _ in range(min(NAMES_IN_A_ROW, count - number))]) for number in range(0, count, NAMES_IN_A_ROW))
    if not arguments.classified:
        print("fixture world\nin %s\n" % json.dumps(encoder_of(WORLD.splitlines()).resolve))
        for number, names in batches:
            put_rows(number, names)
        return
    with tempfile.TemporaryDirectory(prefix="nuigatre.") as folder:
        try:
            doors = types.SimpleNamespace(library=library.library(pathlib.Path(folder)))
        except LeftOut as why:
            sys.exit(str(why))
        totals = [sum(it) for it in zip(*(classified(source, names, doors) for _, names in batches))]
    print("%d imports are classified, %d refused" % tuple(totals))


if __name__ == "__main__":
    main()
