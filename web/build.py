#!/usr/bin/env python3
"""Makes web/nuigatre.wasm of the static library's code: the library for browsers, node and whatever runs WebAssembly.

    web/build.py [--over FOLDER] [--jobs N]   of what `rt ci` proved: proves crates/nuigatre over it, as rust/build-proved.py
    web/build.py --unproved                   of the sources, without their proof, in some minutes
    web/build.py --check [..]                 makes it again, and compares it byte for byte with web/nuigatre.wasm
    web/build.py --state                      says of which sources web/nuigatre.wasm was made, and whether these are they

The kit compiles for WebAssembly only what calls no function of C, and so nothing that allocates. So the library is compiled
for x86-64 with a clang in the toolchain's place that keeps the module of LLVM which it is given. Both processors have
addresses of 64 bits, the lower byte first, and lay types out alike; so the module becomes one for 64-bit WebAssembly by its
first lines and its attributes. It is linked with web/heap.c alone, and imports nothing. At the end wasm-opt of binaryen makes
its addresses 32 bits wide, which every engine takes; with --wide they stay 64 bits wide.

What was proved of the crates below is in crates/*/out/rlib, or in FOLDER (NAME.rlib of each). Beside the module comes
web/nuigatre.wasm.json: what it was made of and by, and whether it is proved. --out FILE names another module. --keep FILE
keeps the module of LLVM, and --from FILE takes one that was kept.

The status is 1 where it is not made, differs or is of other sources, and 3 where one of the crates below is not proved.
"""
import argparse
import gzip
import hashlib
import json
import os
import re
import shutil
import subprocess
import sys

HERE = os.path.dirname(os.path.abspath(__file__))
sys.path[:0] = [os.path.join(os.path.dirname(HERE), name) for name in ("tools", "rust")]
import unproved
from repository import TOP, code_of, crates_below, files_of, kit_command, kit_folder, need, read, rlib_of

CRATE = "nuigatre"
MODULE = os.path.join(HERE, "nuigatre.wasm")
LAYOUT = "e-m:e-p:64:64-p10:8:8-p20:8:8-i64:64-i128:128-n32:64-S128-ni:1:10:20"
# of the functions that WebAssembly has had for long: memory.copy and memory.fill, extension of signs, floats that saturate
CLANG = ["--target=wasm64-unknown-unknown", "--no-default-config", "-mcpu=lime1", "-ffunction-sections", "-fdata-sections"]
# what the kit passes to clang for wasm64
AS_KIT = ["-expand-div-rem-bits=64", "-expand-fp-convert-bits=64", "-trap-unreachable", "-disable-machine-licm",
          "-disable-postra-machine-licm", "-sink-common-insts=false"]
# no C library is linked, so clang must make no calls of it
NO_CALLS = ' "no-builtin-bcmp" "no-builtin-memcmp" "no-builtin-strlen"'
OF_X86 = re.compile(r' "(?:probe-stack|stack-probe-size|target-cpu|target-features|tune-cpu|frame-pointer)"="[^"]*"')
EXPORTED = re.compile(r"define [^@]*@(nuigatre_\w+)\(")
FEATURES = ["memory64", "bulk-memory", "sign-ext", "mutable-globals", "nontrapping-float-to-int"]
# in the place of the kit's clang: keeps the module, and then fails, for nothing is to be made for x86-64
KEEPS = "#!/bin/sh\ncase $* in *module.bc*) cp module.bc {kept} && exit 1 ;; esac\nexec {tool} \"$@\"\n"
# four times what the header says that the calls need; it is below all data, so an overflow is outside of the memory
STACK = 1 << 20


def say(text):
    print("web/build.py: " + text, file=sys.stderr)


def digest(paths):
    """A digest of the code of files, with their paths in the repository. Comments of Rattle and C don't count."""
    made = hashlib.sha256()
    for path in sorted(paths):
        content = code_of(path).encode()
        made.update(b"%s %d\n" % (str(path.relative_to(TOP)).encode(), len(content)))
        made.update(content)
    return made.hexdigest()


def sources():
    """A digest of what the code is made of: the sources of each crate, and this script with its heap."""
    made = {crate: digest(files_of(crate, "src", ".rt")) for crate in crates_below(CRATE)}
    return {**made, "web": digest([TOP / "web" / "build.py", TOP / "web" / "heap.c"])}


def is_proved_below(folder_of):
    """Whether each crate below is proved there; in this checkout also over the sources that there are."""
    if folder_of is rlib_of:
        is_fresh = __import__("build-proved").is_fresh
        return all(is_fresh(crate) for crate in crates_below(CRATE)[:-1])
    return all(os.path.isdir(os.path.join(folder_of(crate), crate + ".rlib")) for crate in crates_below(CRATE)[:-1])


def proved_module(folder, folder_of, jobs):
    """The module for x86-64 of what is proved, as bitcode; and the prover's line."""
    kit, kept = kit_folder(), os.path.join(folder, "kept.bc")
    tool = os.path.join(kit, "toolchain", "bin", "clang")
    toolchain = unproved.toolchain_in(folder, kit, "clang", KEEPS.format(kept=kept, tool=tool))
    flags = ["--jobs", str(jobs), "--toolchain", toolchain, "--backend", "llvm", "-o", os.path.join(folder, "lib.a")]
    command = kit_command("build", CRATE, flags, TOP, folder_of)
    how = {"stdout": subprocess.PIPE, "stderr": subprocess.STDOUT, "text": True, "check": False}
    said = subprocess.run(command, cwd=TOP / "crates" / CRATE, **how).stdout
    proved = re.search(r"^logic=proved .*", said, re.M)
    if not proved or not os.path.exists(kept):
        raise unproved.NotMade(said + "the library is not proved")
    return kept, proved[0]


def unproved_module(folder):
    """The text of the module for x86-64 of the sources."""
    made = __import__("build-unproved")
    progress = unproved.Progress("web/build.py: compiling the library without its proof")
    text = unproved.text_of_module(progress, kit_folder(), folder, CRATE, made.program_crate(folder))
    return unproved.edited(text, made.library_text)


def retargeted(lines):
    """The text of a module for x86-64 as one for 64-bit WebAssembly. What would not be the same there ends it."""
    for line in lines:
        if line.startswith("target datalayout"):
            # addresses, and numbers of 64 and 128 bits, have to be laid out as LAYOUT says
            if "i64:64-i128:128" not in line or "-p:" in line:
                raise unproved.NotMade("another layout of data: " + line)
            line = 'target datalayout = "%s"\n' % LAYOUT
        elif line.startswith("target triple"):
            if '"x86_64-unknown-linux-gnu"' not in line:
                raise unproved.NotMade("another target: " + line)
            line = 'target triple = "wasm64-unknown-unknown"\n'
        elif line.startswith("attributes #"):
            line = OF_X86.sub("", line).replace(" nounwind", " nounwind" + NO_CALLS, 1)
        elif "@nuigatre" in line:
            # symbols may have the number of the form: two forms are never in one module here
            line = re.sub(r"@nuigatre\d+_", "@nuigatre_", line)
        if " asm " in line or "x86_fp80" in line or "llvm.x86" in line:
            raise unproved.NotMade("something of x86: " + line)
        yield line


class Tools:
    """The tools, each of which has to succeed."""

    def __init__(self, folder):
        self.folder, self.clang = folder, os.path.join(kit_folder(), "toolchain", "bin", "clang")

    def path(self, name):
        return os.path.join(self.folder, name)

    def run(self, words, **how):
        ran = subprocess.run(words, capture_output=True, text=True, check=False, **how)
        if ran.returncode:
            raise unproved.NotMade("%s\n%s%s" % (" ".join(words), ran.stdout, ran.stderr))
        return ran.stdout

    def text_of(self, module):
        """The text of a module; of bitcode it is made."""
        if not module.endswith(".bc"):
            return module
        words = ["--target=x86_64-unknown-linux-gnu", "-S", "-emit-llvm", "-x", "ir", module, "-o", self.path("x86.ll")]
        self.run([self.clang, *words])
        return self.path("x86.ll")

    def wide(self, text):
        """The module with 64-bit addresses of the text of one for x86-64, and whether it is proved."""
        target, code, heap = map(self.path, ("wasm.ll", "nuigatre.o", "heap.o"))
        with open(text, encoding="utf-8") as lines, open(target, "w", encoding="utf-8") as file:
            file.writelines(retargeted(lines))
        with open(target, encoding="utf-8") as file:
            lines = file.read()
        # what is not proved has the constant `nuigatre_unproved`
        is_proved = "\n@nuigatre_unproved = constant" not in lines
        exports = [name for name in EXPORTED.findall(lines) if name != "nuigatre_unproved"]
        exports += ["nuigatre_alloc", "nuigatre_free", "nuigatre_limit", "nuigatre_proved"]
        as_kit = [it for flag in AS_KIT for it in ("-mllvm", flag)]
        self.run([self.clang, *CLANG, *as_kit, "-Os", "-c", "-x", "ir", target, "-o", code])
        words = ["-O2", "-ffreestanding", "-nostdlib", "-DPROVED=%d" % is_proved, "-c", os.path.join(HERE, "heap.c")]
        self.run([self.clang, *CLANG, *words, "-o", heap])
        link = ["wasm-ld", "-mwasm64", "--no-entry", "--gc-sections", "--stack-first", "-z", "stack-size=%d" % STACK]
        # names in the objects would bring a table with 64-bit indices, which engines refuse
        link += ["--export=" + name for name in exports]
        self.run([*link, "--threads=1", "--fatal-warnings", "-o", self.path("wide.wasm"), code, heap], executable=self.clang)
        return self.path("wide.wasm"), is_proved

    def narrow(self, wide):
        words = [*("--enable-" + name for name in FEATURES), "--memory64-lowering", "--strip-debug", "--strip-producers"]
        self.run(["wasm-opt", *words, wide, "-o", self.path("narrow.wasm")])
        return self.path("narrow.wasm")

    def versions(self):
        first = lambda words: self.run(words).splitlines()[0].strip()
        return {"kit": read("KIT").strip(), "clang": first([self.clang, "--version"]), "binaryen": first(["wasm-opt", "--version"])}


def content_of(path):
    with open(path, "rb") as file:
        return file.read()


def put(content, path):
    with open(path + ".new", "wb") as file:
        file.write(content)
    os.replace(path + ".new", path)


def make(arguments, folder):
    """The module's bytes, and what was made of what."""
    tools, line = Tools(folder), None
    folder_of = (lambda crate: arguments.over) if arguments.over else rlib_of
    if arguments.taken:
        module = arguments.taken
    elif arguments.unproved:
        module = unproved_module(folder)
    else:
        module, line = proved_module(folder, folder_of, arguments.jobs)
    text = tools.text_of(module)
    if arguments.keep:
        shutil.copyfile(text, arguments.keep)
    path, is_proved = tools.wide(text)
    content = content_of(path if arguments.wide else tools.narrow(path))
    made = {"proved": is_proved, "logic": line, "bytes": len(content), "sha256": hashlib.sha256(content).hexdigest()}
    return content, {**made, **tools.versions(), "sources": sources()}


def compare(content, out):
    """Whether the module there has these bytes."""
    if content == content_of(out):
        print("%s: the same %d bytes" % (os.path.relpath(out), len(content)))
        return 0
    print("%s has %d other bytes than what is made now, %d bytes" % (os.path.relpath(out), os.path.getsize(out), len(content)))
    return 1


def state():
    """Says of which sources the module was made; the status."""
    made, now = json.loads(read("web", "nuigatre.wasm.json")), sources()
    if hashlib.sha256(content_of(MODULE)).hexdigest() != made["sha256"]:
        print("web/nuigatre.wasm is not the module that web/nuigatre.wasm.json is about")
        return 1
    others = sorted(name for name in {*now, *made["sources"]} if now.get(name) != made["sources"].get(name))
    how = "proved" if made["proved"] else "not proved"
    if not others:
        print("web/nuigatre.wasm, %s, is made of these sources" % how)
        return 0
    print("web/nuigatre.wasm, %s, is made of other sources of %s: web/build.py makes it anew" % (how, ", ".join(others)))
    return 1


def main():
    parser = argparse.ArgumentParser(description=__doc__, formatter_class=argparse.RawDescriptionHelpFormatter)
    for name in "--unproved", "--check", "--state", "--wide":
        parser.add_argument(name, action="store_true")
    parser.add_argument("--over", metavar="FOLDER")
    parser.add_argument("--jobs", type=int, default=1, metavar="N")
    parser.add_argument("--keep", metavar="FILE")
    parser.add_argument("--from", dest="taken", metavar="FILE")
    parser.add_argument("--out", default=MODULE, metavar="FILE")
    arguments = parser.parse_args()
    if arguments.state:
        return state()
    if kit_folder() is None:
        say("rt is not on PATH: it compiles the library")
        return 1
    if not arguments.wide:
        need("wasm-opt binaryen")
    arguments.over = arguments.over and os.path.abspath(arguments.over)
    is_built = not (arguments.taken or arguments.unproved)
    if is_built and not is_proved_below((lambda crate: arguments.over) if arguments.over else rlib_of):
        say("a crate below %s is not proved over these sources: run `rt ci` first" % CRATE)
        return 3
    try:
        with unproved.working_folder() as folder:
            content, made = make(arguments, folder)
    except unproved.NotMade as why:
        print(str(why).strip(), file=sys.stderr)
        return 1
    if arguments.check:
        return compare(content, arguments.out)
    put(content, arguments.out)
    put((json.dumps(made, indent=1) + "\n").encode(), arguments.out + ".json")
    print("%s: %d bytes, %d by gzip; %s" % (os.path.relpath(arguments.out), len(content), len(gzip.compress(content, 9)),
                                          made["logic"] or ("proved" if made["proved"] else "not proved")))
    return 0


if __name__ == "__main__":
    sys.exit(main())
