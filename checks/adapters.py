#!/usr/bin/env python3
"""Compares trimmed adapters with those that another linker makes of the same adapters.

    checks/adapters.py [PROGRAM]
    checks/adapters.py --cut EXPORT FILE
    checks/adapters.py --link MAIN FILE

Rust's `wasm-component-ld` carries three WASI adapters, and puts what programs use of them into components, by the Rust crate
`wit-component`. This script takes the adapters out of each toolchain's linker, links the programs of `checks/c/wasi` with each,
takes the trimmed adapter out of each component, and trims the adapter to the same exports by PROGRAM (default:
`crates/wctrim/out/wctrim`). All sections but custom ones have to be the same bytes. `wasm-validate` has to accept each output,
and one without a start function stays the same when it is trimmed again. A line is printed for each difference, and at last
how many agree; the status is 1 if one differs, or if there is none. It needs a rustup toolchain, clang, lld, wabt, wasi-libc and
libclang-rt-dev-wasm32.

--cut writes the first adapter with this export, of the toolchain of the rustc on PATH or of another, to a file. --link writes
the component that such a toolchain's linker makes of a main module and its adapter of commands. They need no other tool.
"""
import argparse
import glob
import os
import shlex
import shutil
import subprocess
import sys
import tempfile

from module_bytes import HEADER, content, exported_names, number_at, sections

TOP = os.path.dirname(os.path.dirname(os.path.abspath(__file__)))
MADE = os.path.join(TOP, "checks", "data", "adapters")
SOURCES = os.path.join(TOP, "checks", "c", "wasi")
LIBRARIES = "/usr/lib/wasm32-wasi"
FEATURES = ["--enable-multi-memory", "--enable-memory64", "--enable-extended-const"]
# a toolchain's linker for components
INSIDE = "lib/rustlib/*/bin/wasm-component-ld"
# the positions that ids of sections have in the order of sections; custom sections have none
ORDER = {1: 1, 2: 2, 3: 3, 4: 4, 5: 5, 6: 6, 7: 7, 8: 8, 9: 9, 12: 10, 10: 11, 11: 12}

# in the place of wasm-ld: it puts a module where the linked one is wanted
LINKED = """#!/bin/sh
while [ $# -gt 1 ]; do
    [ "$1" != -o ] || exec cp {main} "$2"
    shift
done
"""


def module_at(data, start):
    """The module that begins here, as far as its sections are in order."""
    at, last = start + 8, 0
    while at < len(data):
        id = data[at]
        try:
            size, begin = number_at(data, at + 1)
            if id == 0:
                length, name = number_at(data, begin)
                if length == 0 or name + length > begin + size:
                    break
                data[name:name + length].decode()
            elif ORDER.get(id, 0) <= last:
                break
            else:
                last = ORDER[id]
        except (IndexError, ValueError):
            break
        if begin + size > len(data):
            break
        at = begin + size
    return data[start:at]


def modules_inside(data):
    """The modules with code that a file carries, in its order: the adapters of commands, of reactors and of proxies."""
    at = data.find(HEADER)
    while at >= 0:
        module = module_at(data, at)
        if 10 in [id for id, _ in sections(module)]:
            yield module
        at = data.find(HEADER, at + 8)


def compared(module):
    return [(id, content) for id, content in sections(module) if id != 0]


def linkers():
    homes = [os.environ.get("RUSTUP_HOME", os.path.expanduser("~/.rustup"))]
    found = [path for home in homes for path in sorted(glob.glob(os.path.join(home, "toolchains/*", INSIDE)))]
    return found or [path for path in [shutil.which("wasm-component-ld")] if path]


def linkers_of_rustc():
    """The linker of the toolchain of the rustc on PATH."""
    if not shutil.which("rustc"):
        return []
    asked = subprocess.run(["rustc", "--print", "sysroot"], capture_output=True, text=True)
    return sorted(glob.glob(os.path.join(glob.escape(asked.stdout.strip()), INSIDE))) if asked.returncode == 0 else []


def read(path):
    with open(path, "rb") as file:
        return file.read()


def component(linker, objects, options, to):
    start = [] if "reactor" in options else [os.path.join(LIBRARIES, "crt1-command.o")]
    if "reactor" in options:
        start = [os.path.join(LIBRARIES, "crt1-reactor.o"), "--no-entry"]
    builtins = glob.glob("/usr/lib/llvm-*/lib/clang/*/lib/wasi/libclang_rt.builtins-wasm32.a")
    command = [linker, "--wasm-ld-path", shutil.which("wasm-ld"), *options, "-o", to, "-L" + LIBRARIES, *start]
    made = subprocess.run([*command, *objects, "-lc", *builtins[:1]], capture_output=True, text=True)
    if made.returncode != 0:
        print("not linked: %s: %s" % (os.path.basename(to), made.stderr.strip().splitlines()[-1:]))
    return made.returncode == 0


def linked_component(linker, main, options, folder):
    """What a linker makes of a main module, and why it makes nothing."""
    at = {it: os.path.join(folder, "linked-" + it) for it in ("main", "ld", "o", "out")}
    for name, data in ("main", main), ("ld", LINKED.format(main=shlex.quote(at["main"])).encode()), ("o", b""):
        with open(at[name], "wb") as file:
            file.write(data)
    os.chmod(at["ld"], 0o755)
    made = subprocess.run([linker, "--wasm-ld-path", at["ld"], *options, "-o", at["out"], at["o"]], capture_output=True, text=True)
    return (None, " ".join(made.stderr.split())) if made.returncode else (read(at["out"]), "")


def accepted(path):
    return subprocess.run(["wasm-validate", *FEATURES, path], capture_output=True).returncode == 0


def trim(program, source, target, options, wanted):
    ran = subprocess.run([program, "trim", source, target, *options, *wanted], capture_output=True, text=True)
    return "" if ran.returncode == 0 else ran.stdout.strip() or "status %d" % ran.returncode


def is_trimmed(program, path, options, wanted):
    again = path + ".again"
    return not trim(program, path, again, options, wanted) and read(again) == read(path)


def compare(program, source, name, path):
    """Compares the trimmed adapter in a component with what the program makes; None if there is none."""
    data = read(path)
    main, *others = [content for id, content in sections(data) if id == 1]
    for module in others:
        wanted = exported_names(module)
        if len(wanted) < 2 or not set(wanted) <= set(exported_names(read(source))):
            continue
        target = path + ".trimmed"
        grown = "grow" in name or "cabi_realloc" not in exported_names(main)
        options = [] if grown else ["--realloc", "cabi_realloc"]
        fault = trim(program, source, target, options, wanted)
        if fault:
            return "%s: refused: %s" % (name, fault)
        if compared(read(target)) != compared(module):
            different = [id for id, content in compared(module) if (id, content) not in compared(read(target))]
            return "%s: sections differ: %s" % (name, different)
        if not accepted(target):
            return "%s: wasm-validate refuses the output" % name
        if content(module, 8) == b"\0" and not is_trimmed(program, target, options, wanted):
            return "%s: trimmed again it is another" % name
        return ""
    return None


def cut(export, target):
    """Writes the first adapter with this export to the file `target`."""
    seen = linkers_of_rustc() + linkers()
    for linker in seen:
        for module in modules_inside(read(linker)):
            if export in exported_names(module):
                with open(target, "wb") as file:
                    file.write(module)
                print("%s: %d bytes, of %s" % (target, len(module), linker))
                return 0
    if seen:
        print("no adapter with the export %s in %s" % (export, " ".join(seen)), file=sys.stderr)
    else:
        print("wasm-component-ld is missing: rustup's toolchains and wasi-sdk have it", file=sys.stderr)
    return 1


def link(main, target):
    """Writes the component of a main module and of a linker's adapter of commands to the file `target`."""
    why = "wasm-component-ld is missing: rustup's toolchains and wasi-sdk have it"
    for linker in linkers_of_rustc() + linkers():
        with tempfile.TemporaryDirectory() as folder:
            made, why = linked_component(linker, read(main), ["--wasi-adapter", "command"], folder)
        if made:
            with open(target, "wb") as file:
                file.write(made)
            print("%s: %d bytes, by %s" % (target, len(made), linker))
            return 0
    print(why, file=sys.stderr)
    return 1


def main():
    parser = argparse.ArgumentParser(description=__doc__, formatter_class=argparse.RawDescriptionHelpFormatter)
    parser.add_argument("program", nargs="?", default=os.path.join(TOP, "crates", "wctrim", "out", "wctrim"))
    parser.add_argument("--cut", nargs=2, metavar=("EXPORT", "FILE"), help="write an adapter to a file, and compare none")
    parser.add_argument("--link", nargs=2, metavar=("MAIN", "FILE"), help="write a component to a file, and compare none")
    arguments = parser.parse_args()
    if arguments.cut or arguments.link:
        return cut(*arguments.cut) if arguments.cut else link(*arguments.link)
    program = arguments.program
    shutil.rmtree(MADE, ignore_errors=True)
    os.makedirs(MADE)
    objects = []
    for source in sorted(glob.glob(os.path.join(SOURCES, "*.c"))):
        objects.append(os.path.join(MADE, os.path.basename(source) + ".o"))
        subprocess.run(["clang", "--target=wasm32-wasi", "-O1", "-c", source, "-o", objects[-1]], check=True)
    agreed = different = 0
    for toolchain, linker in enumerate(linkers()):
        adapters = []
        for number, module in enumerate(modules_inside(read(linker))):
            adapters.append(os.path.join(MADE, "adapter-%d-%d.wasm" % (toolchain, number)))
            with open(adapters[-1], "wb") as file:
                file.write(module)
        for kind, adapter in zip(("command", "reactor", "proxy"), adapters):
            for object in objects:
                for grow in [], ["--realloc-via-memory-grow"]:
                    name = "%d-%s-%s%s" % (toolchain, kind, os.path.basename(object)[:-4], "-grow" if grow else "")
                    path = os.path.join(MADE, name + ".wasm")
                    if not component(linker, [object], ["--wasi-adapter", kind, *grow], path):
                        continue
                    found = compare(program, adapter, name, path)
                    if found:
                        print(found)
                    if found is not None:
                        agreed, different = agreed + (found == ""), different + (found != "")
    print("%d agree, %d differ" % (agreed, different))
    return 1 if different or not agreed else 0


if __name__ == "__main__":
    sys.exit(main())
