#!/usr/bin/env python3
"""Times calls from Rust, and processes that do the same.

    bench/rust-calls.py [--program PROGRAM] [--rounds N] [--folder FOLDER] [--most N]

Adapters of 3, 1,000 and 100,000 functions are trimmed (the shape `chain` of checks/adapter_shapes.py). A line has the bytes of
each before and after, and the fastest time of a call of `gc::run` through rust/nuigatre, of a process of PROGRAM (default:
crates/wctrim/out/wctrim) if it exists, and of a process of `wasm-metadce` if that is installed. Calls on small adapters are
repeated for a tenth of a second. The program has to leave as many bytes as the call.

Then worlds of 1,000, 10,000 and 40,000 functions, at most --most, are made, as many of which an adapter exports, and all of
which the main module imports; and the world of FOLDER, as in checks/wcplan-real.py. A line has the time of a call of
`ComponentWorld::new`, and of looking up each import of the main module.
"""
import argparse
import json
import os
import pathlib
import shutil
import subprocess
import sys
import tempfile
import time

TOP = os.path.dirname(os.path.dirname(os.path.abspath(__file__)))
sys.path.append(os.path.join(TOP, "checks"))
from adapter_shapes import TYPES, body, call, chain, exports, functions, module
from module_bytes import name, section, vector
from rust_examples import built_example


def three(_):
    """Three functions: the first is exported as `b`, the second as `a`, which calls the third."""
    bodies = section(10, vector([body([], b""), body([], call(2)), body([], b"")]))
    return module(TYPES, functions(3), exports([("b", 0), ("a", 1)]), bodies), ["a"]


def demo_world(count):
    """A world that imports an interface of so many functions, a module that imports these and as many of an adapter, and the adapter."""
    functions_of_it = {"f%d" % i: {"name": "f%d" % i, "kind": "freestanding", "result": None,
                                   "params": [{"name": "x", "type": "u32"}]} for i in range(count)}
    world = {"name": "demo", "imports": {"interface-0": {"interface": {"id": 0}}}, "exports": {}, "package": 0}
    host = {"name": "host", "types": {}, "package": 0, "functions": functions_of_it}
    package = {"name": "my:demo", "interfaces": {"host": 0}, "worlds": {"demo": 0}}
    worlds = {"worlds": [world], "interfaces": [host], "types": [], "packages": [package]}
    types_of_it = section(1, bytes.fromhex("0260017f00600000"))
    imports = [name("my:demo/host") + name("f%d" % i) + b"\0\0" for i in range(count)]
    imports += [name("old") + name("g%d" % i) + b"\0\1" for i in range(count)]
    bodies = section(10, vector([body([], b"")] * count))
    exported = exports([("g%d" % i, i) for i in range(count)])
    adapter = module(section(1, bytes.fromhex("01600000")), functions(count), exported, bodies)
    return json.dumps(worlds), module(types_of_it, section(2, vector(imports))), adapter


def world_call(example, arguments, adapter, rounds):
    """The fastest call, and the fastest looking up of all imports."""
    command = [example, *arguments, str(rounds), *adapter]
    ran = subprocess.run(command, capture_output=True, text=True, check=True)
    call_time, asked, found = (int(word) for word in ran.stdout.split())
    return "call %s, %d looked up in %s" % (shown(call_time), found, shown(asked))


def time_worlds(folder, most, rounds, real):
    example = built_example("time_world")
    paths = [os.path.join(folder, part) for part in ("worlds.json", "main.wasm", "old.wasm")]
    for count in 1_000, 10_000, 40_000:
        if count > most:
            continue
        worlds, main_module, adapter = demo_world(count)
        pathlib.Path(paths[0]).write_text(worlds)
        pathlib.Path(paths[1]).write_bytes(main_module)
        pathlib.Path(paths[2]).write_bytes(adapter)
        arguments = [paths[0], "demo", paths[1]]
        answer = world_call(example, arguments, ["old=" + paths[2]], rounds)
        print("a world of %d functions and %d of an adapter: %s" % (count, count, answer), flush=True)
    if real:
        worlds, main_module, adapter = (os.path.join(real, "wasi-" + part) for part in
                                        ("command.json", "hello.wasm", "command-adapter.wasm"))
        (key,) = json.loads(pathlib.Path(worlds).read_text())["worlds"][0]["exports"]
        adapter = ["wasi_snapshot_preview1=" + adapter, key]
        answer = world_call(example, [worlds, "command", main_module], adapter, 10 * rounds)
        print("the world of a real program: %s" % answer, flush=True)


def called(example, source, names, rounds):
    """The fastest call in nanoseconds, and the bytes that are left."""
    def answer(times):
        ran = subprocess.run([example, source, str(times), *names], capture_output=True, text=True, check=True)
        return [int(word) for word in ran.stdout.split()]
    once, _ = answer(1)
    return answer(max(rounds, 100_000_000 // max(once, 1)))


def fastest(command, rounds):
    """The fastest process in nanoseconds."""
    times = []
    for _ in range(rounds):
        begun = time.perf_counter_ns()
        subprocess.run(command, stdout=subprocess.DEVNULL, check=True)
        times.append(time.perf_counter_ns() - begun)
    return min(times)


def metadce(source, names, folder):
    """The command by which `wasm-metadce` keeps these exports; None where it is not installed."""
    program = shutil.which("wasm-metadce")
    if program is None:
        return None
    graph = [{"name": "outside", "root": True, "reaches": ["export:" + name for name in names]}]
    graph += [{"name": "export:" + name, "export": name} for name in names]
    roots = os.path.join(folder, "roots.json")
    pathlib.Path(roots).write_text(json.dumps(graph))
    return [program, source, "--graph-file", roots, "-o", os.path.join(folder, "metadce.wasm")]


def shown(nanoseconds):
    if nanoseconds is None:
        return "not there"
    return "%.1f us" % (nanoseconds / 1e3) if nanoseconds < 1e6 else "%.1f ms" % (nanoseconds / 1e6)


def main():
    parser = argparse.ArgumentParser(description=__doc__, formatter_class=argparse.RawDescriptionHelpFormatter)
    parser.add_argument("--program", default=os.path.join(TOP, "crates", "wctrim", "out", "wctrim"))
    parser.add_argument("--rounds", type=int, default=5)
    parser.add_argument("--folder")
    parser.add_argument("--most", type=int, default=40_000)
    options = parser.parse_args()
    example, status = built_example("time_trim"), 0
    has_program = os.path.exists(options.program)
    with tempfile.TemporaryDirectory() as folder:
        source, target = os.path.join(folder, "in.wasm"), os.path.join(folder, "out.wasm")
        for count, make in (3, three), (1_000, chain), (100_000, chain):
            adapter, names = make(count)
            pathlib.Path(source).write_bytes(adapter)
            call_time, left = called(example, source, names, options.rounds)
            process = None
            if has_program:
                process = fastest([options.program, "trim", source, target, *names], options.rounds)
                if os.path.getsize(target) != left:
                    print("%d functions: the program leaves %d bytes" % (count, os.path.getsize(target)))
                    status = 1
            command = metadce(source, names, folder)
            beside = fastest(command, min(options.rounds, 3)) if command else None
            print("%d functions: %d bytes to %d, call %s, process %s, wasm-metadce %s"
                  % (count, len(adapter), left, shown(call_time), shown(process), shown(beside)), flush=True)
        time_worlds(folder, options.most, options.rounds, options.folder)
    return status


if __name__ == "__main__":
    sys.exit(main())
