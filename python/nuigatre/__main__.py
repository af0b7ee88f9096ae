"""The calls in a terminal: ``python -m nuigatre why|scan|trim|dedupe``. What is printed are the lines of the programs wcwhy,
wcplan and wctrim."""

from __future__ import annotations

import argparse
import os
import sys
from collections.abc import Iterator, Sequence

import nuigatre
from nuigatre import Adapter, Error, NoLibrary, Rename
from nuigatre._lines import Refused, component_tree, lines, own_tree, text

WHY = """Says why a module imports something, in the lines of wcwhy; with --adapt of a main module and its adapters; and with
--worlds in those of `wcplan --why KEY`. Without --worlds no line says who calls through a table; through adapters nothing is
marked, and of several shortest paths another may be shown."""


def content(path: str) -> bytes:
    """The bytes of a file; those of standard input for `-`."""
    if path == "-":
        return sys.stdin.buffer.read()
    with open(path, "rb") as file:
        return file.read()


def named(given: str) -> tuple[str, str]:
    """The name of an adapter and its file: a file without a name is named as it is, up to the first `.`."""
    name, has_name, path = given.partition("=")
    return (name, path) if has_name else (os.path.basename(given).partition(".")[0], given)


def why(asked: argparse.Namespace) -> Iterator[str]:
    adapters = [named(it) for it in asked.adapt]
    names, exports = [name for name, _ in adapters], [it.partition("=") for it in asked.adapter_export]
    for name, has_export, _ in exports:
        if not has_export or name not in names:
            asked.wrong(f"--adapter-export takes NAME=EXPORT, and NAME is that of an adapter: {name}")
    for name in names:
        if names.count(name) > 1:
            asked.wrong(f"two adapters are named {name}")
    if asked.world is None and asked.worlds is not None or asked.worlds is None and asked.world is not None:
        asked.wrong("--worlds and --world come together")
    main = content(asked.main)
    parts = [(name, content(path), [export for of, _, export in exports if of == name]) for name, path in adapters]
    if asked.worlds is None:
        tree = component_tree(main, parts, asked.exports, asked.imports) if parts else own_tree(main, asked.exports, asked.imports)
        yield from lines(tree, bool(parts))
        return
    if len(asked.imports) > 1 or asked.exports:
        asked.wrong("with --worlds there is at most one --import, and no EXPORT")
    key = asked.imports[0] if asked.imports else "all"
    listed = [Adapter(name, wasm, keys) for name, wasm, keys in parts]
    tree = nuigatre.component_paths(content(asked.worlds), asked.world, main, listed, key=key)
    if not tree["ways"] and key != "all":
        yield f"{text(key)}: in the world but not imported"
    yield from lines(tree, True)


def scan(asked: argparse.Namespace) -> Iterator[str]:
    found = nuigatre.scan(content(asked.module))
    for it in found["imports"]:
        yield f"import {it['module']} {it['name']} {it['kind']}"
    for it in found["exports"]:
        yield f"export {it['name']} {it['kind']} {it['index']}"


def written(path: str, wasm: bytes) -> None:
    with open(path, "wb") as file:
        file.write(wasm)


def trim(asked: argparse.Namespace) -> Iterator[str]:
    given = {"realloc": asked.realloc, "page_size_log2": asked.page}
    written(asked.out, nuigatre.trim(content(asked.module), asked.exports, **given))
    yield from ()


def renamed(it: Rename) -> str:
    return f"{it.module}: {it.original} -> {it.name}"


def dedupe(asked: argparse.Namespace) -> Iterator[str]:
    module, renames = nuigatre.dedupe(content(asked.module))
    written(asked.out, module)
    yield from map(renamed, renames)


def parser_of_why(of: argparse.ArgumentParser) -> None:
    of.add_argument("main", metavar="IN", help="the module; with --adapt the main module; `-` is standard input")
    of.add_argument("exports", metavar="EXPORT", nargs="*", help="an export at which paths may begin")
    of.add_argument("--adapt", metavar="[NAME=]FILE", action="append", default=[], help="an adapter; it may repeat")
    of.add_argument("--adapter-export", metavar="NAME=EXPORT", action="append", default=[],
                    help="what an adapter has to export, with --worlds a key of the world; it may repeat")
    of.add_argument("--import", dest="imports", metavar="KEY", action="append", default=[],
                    help="an interface, a module or a package; without --worlds also KEY=NAME, and it may repeat")
    of.add_argument("--worlds", metavar="FILE", help="the worlds, as `wasm-tools component wit --json` prints them")
    of.add_argument("--world", metavar="NAME", help="the component's world")


def parser_of_scan(of: argparse.ArgumentParser) -> None:
    of.add_argument("module", metavar="IN", help="the module; `-` is standard input")


def parser_of_dedupe(of: argparse.ArgumentParser) -> None:
    parser_of_scan(of)
    of.add_argument("out", metavar="OUT", help="the file that is written")


def parser_of_trim(of: argparse.ArgumentParser) -> None:
    parser_of_dedupe(of)
    of.add_argument("exports", metavar="EXPORT", nargs="+", help="what is used of the adapter")
    of.add_argument("--realloc", metavar="NAME", help="under which name the main module exports a realloc")
    of.add_argument("--page", type=int, choices=(0, 16), default=16, help="the page size of the memory, as a power of 2")


COMMANDS = {
    "why": (why, parser_of_why, WHY), "scan": (scan, parser_of_scan, "Lists what a module imports and exports, as wctrim does."),
    "trim": (trim, parser_of_trim, "Trims an adapter to what these exports reach."),
    "dedupe": (dedupe, parser_of_dedupe, "Renames repeated imports, and prints a line for each."),
}


def parsed(words: Sequence[str] | None) -> argparse.Namespace:
    first = argparse.ArgumentParser(prog="nuigatre", description=__doc__, usage="nuigatre why|scan|trim|dedupe [--help] ARGUMENT..")
    first.add_argument("--version", action="version", version=nuigatre.__version__)
    first.add_argument("call", choices=COMMANDS)
    first.add_argument("rest", metavar="ARGUMENT", nargs=argparse.REMAINDER, help=argparse.SUPPRESS)
    found = first.parse_args(words)
    run, fill, says = COMMANDS[found.call]
    own = argparse.ArgumentParser(prog=f"nuigatre {found.call}", description=says, allow_abbrev=False)
    fill(own)
    return own.parse_intermixed_args(found.rest, argparse.Namespace(run=run, wrong=own.error))


def main(words: Sequence[str] | None = None) -> int:
    """Runs a command; its status: 1 where there is a fault, and 2 for wrong arguments."""
    asked = parsed(words)
    try:
        printed = "".join(line + "\n" for line in asked.run(asked))
        sys.stdout.buffer.write(printed.encode())
        sys.stdout.flush()
    except BrokenPipeError:
        # what reads the lines has enough of them; the interpreter would try once more
        os.dup2(os.open(os.devnull, os.O_WRONLY), sys.stdout.fileno())
        return 1
    except OSError as wrong:
        print(f"nuigatre: {wrong.filename or 'standard output'}: {wrong.strerror}", file=sys.stderr)
        return 1
    except (Error, NoLibrary, Refused) as wrong:
        print(f"nuigatre: {wrong}", file=sys.stderr)
        return 1
    return 0


if __name__ == "__main__":
    sys.exit(main())
