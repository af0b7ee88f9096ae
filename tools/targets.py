#!/usr/bin/env python3
"""Makes the static and the shared library for x86-64 and aarch64, and runs the C example over both.

    tools/targets.py [--over FOLDER | --packed | --archive FILE | --unproved] [--jobs N] [--out FOLDER] [TARGET ..]

TARGET is x86_64 or aarch64 (default: both, with --packed this machine's). FOLDER/TARGET (default: crates/nuigatre/out) then has
libnuigatre.a, libnuigatre.so and nuigatre.pc. The library is proved over what `rt ci` proved of the crates below, in
crates/*/out/rlib or in the folder of --over, once for each target, and compiled for it. --unproved compiles the sources without
proof. --packed takes the proved library of rust/nuigatre/lib, needs no kit, and wants --out. --archive takes an archive for the
one TARGET. Symbols have the number of their form (rust/symbols.py).

The shared library has include/nuigatre_heap.c in it, and exports the functions of include/nuigatre.h alone. cc makes it, or
aarch64-linux-gnu-gcc; qemu runs what is made for another processor. examples/c/trim.c, linked with the archive and with the
shared library, has to write examples/trimmed.wasm. Without --out a copy of this machine's shared library goes to
python/nuigatre. The status is 1 if something fails, and 3 if a crate below is not proved.
"""
import argparse
import os
import platform
import re
import shutil
import subprocess
import sys

HERE = os.path.dirname(os.path.abspath(__file__))
sys.path[:0] = [HERE, os.path.join(os.path.dirname(HERE), "rust")]
import pkgconfig
import symbols
import unproved
from repository import TOP, crates_below, kit_command, kit_folder, need, rlib_of

CRATE = "nuigatre"
INCLUDE = str(TOP / "include")
OUT = str(TOP / "crates" / CRATE / "out")
# for each target its triple, LLVM's layout of data, its C compiler, what runs its programs, and Debian's packages
TARGETS = {
    "x86_64": ("x86_64-unknown-linux-gnu", None, "cc", [], "gcc"),
    "aarch64": ("aarch64-unknown-linux-gnu", "e-m:e-p270:32:32-p271:32:32-p272:64:64-i8:8:32-i16:16:32-i64:64-i128:128-n32:64-S128-Fn32",
                "aarch64-linux-gnu-gcc", ["qemu-aarch64", "-L", "/usr/aarch64-linux-gnu"], "gcc-aarch64-linux-gnu"),
}
OF_X86 = re.compile(r' "(?:probe-stack|target-cpu|target-features|tune-cpu)"="[^"]*"')


def tool(target, name):
    """The program of the target's binutils that has this name there."""
    return TARGETS[target][2].removesuffix("gcc").removesuffix("cc") + name


def includes(archive):
    """The flags for the header: whether the symbols of the archive are the functions' names."""
    is_plain = re.search(r" T nuigatre_abi$", run(["nm", "--defined-only", archive]), re.M)
    return ["-I" + INCLUDE, *(["-DNUIGATRE_PLAIN_SYMBOLS"] if is_plain else [])]


def run(words, **how):
    """What a command says, on standard output and standard error."""
    streams = {"stdout": subprocess.PIPE, "stderr": subprocess.STDOUT}
    ran = subprocess.run([str(it) for it in words], **streams, text=True, check=False, **how)
    if ran.returncode:
        raise unproved.NotMade("%s\n%s" % (" ".join(map(str, words)), ran.stdout))
    return ran.stdout


def prove(target, archive, folder_of, jobs):
    """Proves the library over what is proved below, and compiles it for the target; the prover's line."""
    flags = ["--jobs", str(jobs), "--toolchain", os.path.join(kit_folder(), "toolchain"), "--backend", "llvm"]
    flags += ["--target", TARGETS[target][0], "-o", archive]
    said = run(kit_command("build", CRATE, flags, TOP, folder_of), cwd=TOP / "crates" / CRATE)
    symbols.number(archive, tool(target, "objcopy"))
    return re.search(r"^logic=proved .*", said, re.M)[0]


def retargeted(lines, target):
    """The text of a module for x86-64 as one for the target, whose types are laid out alike."""
    triple, layout = TARGETS[target][:2]
    for line in lines:
        if layout and line.startswith("target datalayout"):
            line = 'target datalayout = "%s"\n' % layout
        elif layout and line.startswith("target triple"):
            line = 'target triple = "%s"\n' % triple
        elif layout and line.startswith("attributes #"):
            line = OF_X86.sub("", line)
        yield line


def compile_unproved(target, archive, text, folder):
    """The library of the text of the sources' module."""
    tools, code, own = os.path.join(kit_folder(), "toolchain", "bin"), os.path.join(folder, "nuigatre.o"), text + "." + target
    with open(text, encoding="utf-8") as lines, open(own, "w", encoding="utf-8") as file:
        file.writelines(retargeted(lines, target))
    words = ["--target=" + TARGETS[target][0], "--no-default-config", *unproved.SECTIONS, "-fPIC", "-O1", "-c", "-x", "ir", own, "-o", code]
    run([os.path.join(tools, "clang"), *words])
    if os.path.exists(archive):
        os.remove(archive)
    run([os.path.join(tools, "llvm-ar"), "rcs", archive, code])


def unpack(target, archive):
    """Puts there the library that the Rust crate has packed; a line on it."""
    packed = __import__("archives")
    content, wanted = packed.in_crate(target), str(symbols.form())
    if not content:
        raise unproved.NotMade("rust/nuigatre/lib has no library for " + target)
    if packed.said("form") != wanted:
        raise unproved.NotMade("rust/nuigatre/lib has form %s, and include/nuigatre.h form %s" % (packed.said("form"), wanted))
    with open(archive, "wb") as file:
        file.write(content)
    return "of rust/nuigatre/lib, proved: " + packed.said("proved")


def link(target, folder):
    """The shared library of the archive."""
    compiler, archive, shared = TARGETS[target][2], os.path.join(folder, "libnuigatre.a"), os.path.join(folder, "libnuigatre.so")
    words = ["-O2", "-fPIC", "-shared", "-fvisibility=hidden", "-Wl,-soname,libnuigatre.so", "-Wl,-z,defs", "-Wl,--gc-sections"]
    words += [*includes(archive), os.path.join(INCLUDE, "nuigatre_heap.c")]
    run([compiler, *words, "-Wl,--whole-archive", archive, "-Wl,--no-whole-archive", "-o", shared])
    exported = set(re.findall(r" [TRDB] (\w+)$", run(["nm", "-D", "--defined-only", shared]), re.M))
    if any(not name.startswith("nuigatre") for name in exported):
        raise unproved.NotMade("the shared library exports " + " ".join(sorted(exported)))
    return shared


def try_out(target, folder):
    """Runs the C example over the archive and over the shared library."""
    compiler, runner = TARGETS[target][2], TARGETS[target][3] if platform.machine() != target else []
    source, heap, archive = TOP / "examples" / "c" / "trim.c", os.path.join(INCLUDE, "nuigatre_heap.c"), os.path.join(folder, "libnuigatre.a")
    ways = {"archive": [heap, archive],
            "shared library": ["-L" + folder, "-lnuigatre", "-Wl,-rpath," + folder]}
    for way, linked in ways.items():
        program, out = os.path.join(folder, "trim"), os.path.join(folder, "trimmed.wasm")
        run([compiler, "-std=c99", "-O2", *includes(archive), source, *linked, "-o", program])
        run([*runner, program, TOP / "examples" / "adapter.wasm", out, "--realloc", "cabi_realloc", "size_of"])
        with open(out, "rb") as found:
            if found.read() != (TOP / "examples" / "trimmed.wasm").read_bytes():
                raise unproved.NotMade("%s, %s: examples/c/trim.c did not write examples/trimmed.wasm" % (target, way))
        os.remove(out)
        os.remove(program)


def is_proved_below(folder_of):
    if folder_of is rlib_of:
        return all(map(__import__("build-proved").is_fresh, crates_below(CRATE)[:-1]))
    return all(os.path.isdir(os.path.join(folder_of(it), it + ".rlib")) for it in crates_below(CRATE)[:-1])


class Maker:
    """Makes archives by the way that is asked for."""

    def __init__(self, arguments, folder):
        self.given, self.folder, self.text = arguments, folder, None
        self.folder_of = (lambda crate: os.path.abspath(arguments.over)) if arguments.over else rlib_of

    def archive(self, target, path):
        if self.given.archive:
            if not os.path.exists(path) or not os.path.samefile(self.given.archive, path):
                shutil.copyfile(self.given.archive, path)
            return "of " + self.given.archive
        if self.given.packed:
            return unpack(target, path)
        if not self.given.unproved:
            return prove(target, path, self.folder_of, self.given.jobs)
        if self.text is None:
            made, progress = __import__("build-unproved"), unproved.Progress("compiling the library without its proof")
            text = unproved.text_of_module(progress, kit_folder(), self.folder, CRATE, made.program_crate(self.folder))
            self.text = unproved.edited(text, made.library_text)
        compile_unproved(target, path, self.text, self.folder)
        return "not proved"


def make(arguments, folder):
    maker = Maker(arguments, folder)
    for target in arguments.targets:
        out = os.path.join(os.path.abspath(arguments.out or OUT), target)
        os.makedirs(out, exist_ok=True)
        line = maker.archive(target, os.path.join(out, "libnuigatre.a"))
        shared = link(target, out)
        pkgconfig.write(out)
        try_out(target, out)
        if target == platform.machine() and not arguments.out:
            shutil.copyfile(shared, TOP / "python" / "nuigatre" / "libnuigatre.so")
        sizes = "%d and %d bytes" % (os.path.getsize(os.path.join(out, "libnuigatre.a")), os.path.getsize(shared))
        print("%s: archive and shared library of %s; trim.c gives examples/trimmed.wasm with both; %s" % (target, sizes, line), flush=True)


def main():
    parser = argparse.ArgumentParser(description=__doc__, formatter_class=argparse.RawDescriptionHelpFormatter)
    parser.add_argument("--over", metavar="FOLDER")
    parser.add_argument("--packed", action="store_true")
    parser.add_argument("--archive", metavar="FILE")
    parser.add_argument("--unproved", action="store_true")
    parser.add_argument("--jobs", type=int, default=1, metavar="N")
    parser.add_argument("--out", metavar="FOLDER")
    parser.add_argument("targets", nargs="*", metavar="TARGET")
    arguments = parser.parse_args()
    if any(it not in TARGETS for it in arguments.targets) or arguments.archive and len(arguments.targets) != 1:
        parser.error("TARGET is %s; --archive takes exactly one" % " or ".join(TARGETS))
    if arguments.packed and not arguments.out:
        parser.error("--packed needs --out: crates/nuigatre/out is for libraries made of these sources")
    if not arguments.targets:
        arguments.targets = [platform.machine()] if arguments.packed else list(TARGETS)
    if arguments.targets[0] not in TARGETS:
        sys.exit("rust/nuigatre/lib has no library for %s, but for %s" % (arguments.targets[0], " and ".join(TARGETS)))
    for target in arguments.targets:
        need("%s %s" % (TARGETS[target][2], TARGETS[target][4]))
        if TARGETS[target][3] and platform.machine() != target:
            need("%s qemu-user" % TARGETS[target][3][0])
    if not (arguments.archive or arguments.packed):
        if kit_folder() is None:
            sys.exit("rt, which compiles the library, is not on PATH: --packed needs none")
        over = (lambda crate: os.path.abspath(arguments.over)) if arguments.over else rlib_of
        if not arguments.unproved and not is_proved_below(over):
            print("a crate below %s is not proved, or was changed since: run `rt ci` first" % CRATE, file=sys.stderr)
            return 3
    try:
        with unproved.working_folder() as folder:
            make(arguments, folder)
    except unproved.NotMade as why:
        print(str(why).strip(), file=sys.stderr)
        return 1
    return 0


if __name__ == "__main__":
    sys.exit(main())
