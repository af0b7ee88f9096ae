#!/usr/bin/env python3
"""Puts the static libraries for x86-64 and aarch64 into the Rust crate, so that it can be built without rt.

    tools/archives.py                      of what is proved
    tools/archives.py --from FOLDER --out FOLDER [--unproved]
    tools/archives.py --check [--again] [TARGET ..]

rust/nuigatre/lib then has TARGET-unknown-linux-gnu/libnuigatre.a.gz for each TARGET (x86_64 and aarch64), stripped and packed, and

    BUILT        the version, the commit, the kit, the number of the form, whether all is proved, a checksum of the sources,
                 and what stripped them
    SHA256SUMS   of each file

The libraries are crates/nuigatre/out/TARGET/libnuigatre.a, from tools/targets.py, or for x86-64 the newer one of that and
crates/nuigatre/out/libnuigatre.a, from rust/check; with --from they are FOLDER/TARGET/libnuigatre.a. They may not be older than
their sources, which have to be committed. Nothing is put if one is missing, calls other functions than its heap and five of the C
library, or was not proved, or if all have more than 3 MB. --unproved takes such libraries too, to try this script, and needs
--out.

--check compares checksums, size, version and form with what the files say, and each library that was made again with the one in
the crate, byte by byte; --again makes them again now, by tools/targets.py. It prints what differs, and whether sources, kit or
version do. The status is 1 if the checksums are wrong, or if bytes differ without such a reason.
"""
import argparse
import gzip
import hashlib
import os
import pathlib
import re
import shutil
import sys
import tempfile

from repository import TOP, code_of, crates_below, files_of, need, read, run

sys.path.append(str(TOP / "rust"))
import pkgconfig
import symbols
import targets

CRATE = "nuigatre"
LIB = TOP / "rust" / CRATE / "lib"
ARCHIVE = "libnuigatre.a"
PACKED = ARCHIVE + ".gz"
LIMIT = 3_000_000
# what a library asks for: its heap, and what compilers expect of each C library
CALLED = {"rattle_alloc", "rattle_realloc", "rattle_dealloc", "memcpy", "memmove", "memset", "memcmp", "bcmp"}
MACHINES = {"x86_64": "Advanced Micro Devices X86-64", "aarch64": "AArch64"}


def fail(text):
    sys.exit("%s: %s" % (os.path.relpath(sys.argv[0], TOP), text))


def sources(crate):
    """The sources of a crate and of those below it."""
    return [file for name in crates_below(crate) for file in files_of(name, "src", ".rt")]


def fresh(path, crate, how):
    """A file that is made of a crate and of those below it, and is not older than their sources."""
    shown = os.path.relpath(path, TOP)
    if not path.is_file():
        fail(f"{shown} is missing: {how}")
    newest = max(sources(crate), key=lambda it: it.stat().st_mtime)
    if newest.stat().st_mtime > path.stat().st_mtime:
        fail(f"{shown} is older than {newest.relative_to(TOP)}: {how}")
    return path


def checksum_of_sources():
    """A checksum of all that the library is compiled of: the code of each file, with its path. Comments don't count."""
    digest = hashlib.sha256()
    for path in sorted(sources(CRATE)):
        digest.update(f"{path.relative_to(TOP)}\n".encode())
        digest.update(hashlib.sha256(code_of(path).encode()).digest())
    return digest.hexdigest()


def is_of_proof(path):
    """Whether the kit's prover compiled this: it writes the checksum of its logic beside the code, of which KIT has the front."""
    return b"rattle logic=" + read("KIT").split()[-1].encode() in pathlib.Path(path).read_bytes()


NO_PROOF = "it was compiled without its proof, or by another kit than KIT names"


def commit_of(is_proved):
    """The commit of the checkout. What is proved is of a commit: no source of it is changed since."""
    if not (TOP / ".git").exists() and not is_proved:
        return "none"
    commit = run("git", "rev-parse", "HEAD", cwd=TOP).strip()
    changed = run("git", "status", "--porcelain", "--untracked-files=no", "--", "crates", "crates.txt", "include", "KIT", cwd=TOP)
    if changed and is_proved:
        fail("there are changes that are not committed:\n" + changed)
    return commit + (" and changes that are not committed" if changed else "")


def built_of(is_proved):
    """What a release is made of."""
    return "".join([
        f"version {pkgconfig.member('version')}\n", f"commit {commit_of(is_proved)}\n", f"kit {read('KIT').strip()}\n",
        f"form {symbols.form()}\n", "proved yes\n" if is_proved else "proved no: compiled without its proof\n",
        f"sources {checksum_of_sources()}\n",
    ])


def sums(folder, paths):
    lines = [f"{hashlib.sha256(path.read_bytes()).hexdigest()}  {path.relative_to(folder)}\n" for path in sorted(paths)]
    return "".join(lines)


def put(source, *parts, is_program=False):
    """A copy of a file, which others may read and a program they may run."""
    goal = pathlib.Path(*parts)
    goal.parent.mkdir(parents=True, exist_ok=True)
    shutil.copyfile(source, goal)
    goal.chmod(0o755 if is_program else 0o644)
    return goal


def put_text(text, *parts):
    goal = pathlib.Path(*parts)
    goal.parent.mkdir(parents=True, exist_ok=True)
    goal.write_text(text, encoding="utf-8")


def made(target, folder=None):
    """The library for a target that tools/targets.py made, or, for x86-64, rust/check: the newer one."""
    if folder:
        return pathlib.Path(folder, target, ARCHIVE), f"tools/targets.py --out {folder} {target} makes it"
    out = TOP / "crates" / CRATE / "out"
    paths = [out / target / ARCHIVE, *([out / ARCHIVE] if target == "x86_64" else [])]
    found = sorted(filter(pathlib.Path.is_file, paths), key=lambda path: path.stat().st_mtime)
    return (found or paths)[-1], f"tools/targets.py {target} makes it" + (", and rust/check" if target == "x86_64" else "")


def strip(target, archive):
    """Takes from a library what no linker needs, and gives its symbols the number of the form."""
    tool = targets.tool(target, "strip")
    symbols.number(archive, targets.tool(target, "objcopy"))
    run(tool, "--enable-deterministic-archives", "--strip-unneeded", archive)


def unfit(target, archive, is_proved):
    """Why a library can't be in the crate; None where it can."""
    listed = run(targets.tool(target, "nm"), archive)
    called = set(re.findall(r" [Uw] (\w+)$", listed, re.M)) - set(re.findall(r" [TRDBVW] (\w+)$", listed, re.M))
    form = symbols.numbered("nuigatre_abi")
    if set(re.findall(r"^  Machine: +(.*)$", run("readelf", "-h", archive), re.M)) != {MACHINES[target]}:
        return "it is for another processor"
    if f" T {form}\n" not in listed:
        return f"it has no symbol {form}"
    if called - CALLED:
        return "it calls " + " ".join(sorted(called - CALLED))
    if is_proved and (symbols.numbered("nuigatre_unproved") in listed or not is_of_proof(archive)):
        return NO_PROOF
    return None


def fill(folder, asked):
    """Puts the libraries into a folder."""
    total = 0
    for target in targets.TARGETS:
        path, how = made(target, asked.folder)
        archive = put(fresh(path, CRATE, how), folder, targets.TARGETS[target][0], ARCHIVE)
        strip(target, archive)
        why = unfit(target, archive, not asked.unproved)
        if why:
            fail(f"{os.path.relpath(path, TOP)}: {why}")
        # without a name and a time
        packed = archive.with_name(PACKED)
        packed.write_bytes(gzip.compress(archive.read_bytes(), 9, mtime=0))
        total += packed.stat().st_size
        print(f"{packed.relative_to(folder)}: {archive.stat().st_size} bytes, and {packed.stat().st_size} packed")
        archive.unlink()
    if total > LIMIT:
        fail(f"all libraries have {total} bytes, and {LIMIT} is the most")
    put_text(built_of(not asked.unproved) + f"stripped by {run('strip', '--version').splitlines()[0]}\n", folder, "BUILT")
    put_text(sums(folder, [path for path in folder.rglob("*") if path.is_file()]), folder, "SHA256SUMS")


def place(asked):
    """Puts the libraries into the crate, all or none."""
    goal = pathlib.Path(asked.out) if asked.out else LIB
    with tempfile.TemporaryDirectory(dir=goal.parent, prefix=".lib.") as room:
        folder = pathlib.Path(room, "lib")
        folder.mkdir()
        fill(folder, asked)
        folder.chmod(0o755)
        if goal.exists():
            os.replace(goal, pathlib.Path(room, "old"))
        os.replace(folder, goal)
    print(f"{os.path.relpath(goal, TOP)} has the libraries of both targets")


def in_crate(target):
    """The library for a target that the crate has; nothing where it has none."""
    packed = LIB / targets.TARGETS[target][0] / PACKED
    return gzip.decompress(packed.read_bytes()) if packed.is_file() else b""


def said(name):
    """What the crate's libraries say of themselves."""
    return re.search(rf"^{name} (.*)$", (LIB / "BUILT").read_text(encoding="utf-8"), re.M)[1]


def reasons():
    """Why the crate's libraries may have other bytes than those that are made now."""
    now = {
        "version": pkgconfig.member("version"), "kit": read("KIT").strip(), "form": str(symbols.form()),
        "sources": checksum_of_sources(),
    }
    return [f"{name} {said(name)} then, {value} now" for name, value in now.items() if said(name) != value]


def compared(target, folder, why):
    """Compares the crate's library for a target with one that was made again; whether they differ without a reason."""
    path, how = made(target, folder)
    if not path.is_file():
        print(f"{target}: not compared, since {os.path.relpath(path, TOP)} is missing: {how}")
        return False
    with tempfile.TemporaryDirectory() as room:
        again = put(fresh(path, CRATE, how), room, ARCHIVE)
        strip(target, again)
        kept = pathlib.Path(room, "kept.a")
        kept.write_bytes(in_crate(target))
        if kept.read_bytes() == again.read_bytes():
            print(f"{target}: the same bytes")
            return False
        print(f"{target}: other bytes: {kept.stat().st_size} in the crate, and {again.stat().st_size} now")
        return not why


def check(asked):
    """Compares the crate's libraries with what they say, and with those that were made again; the status."""
    if not LIB.is_dir():
        print("the crate has no libraries: tools/archives.py puts them there")
        return 0
    run("sha256sum", "--check", "--strict", "--quiet", "SHA256SUMS", cwd=LIB)
    listed = {line.split("  ")[1] for line in (LIB / "SHA256SUMS").read_text(encoding="utf-8").splitlines()}
    others = {str(path.relative_to(LIB)) for path in LIB.rglob("*") if path.is_file()} - listed - {"SHA256SUMS"}
    if others:
        fail("rust/nuigatre/lib/SHA256SUMS lacks " + " ".join(sorted(others)))
    total = sum(path.stat().st_size for path in LIB.rglob("*.gz"))
    if total > LIMIT:
        fail(f"the libraries in rust/nuigatre/lib have {total} bytes, and {LIMIT} is the most")
    why = reasons()
    print("".join(f"of another {line}\n" for line in why) or "of these sources\n", end="")
    wanted = asked.targets or list(targets.TARGETS)
    if not asked.again:
        return int(any([compared(target, asked.folder, why) for target in wanted]))
    with tempfile.TemporaryDirectory() as folder:
        over = ["--over", asked.over] if asked.over else []
        print(run(sys.executable, TOP / "tools/targets.py", "--out", folder, *over, *wanted), end="")
        return int(any([compared(target, folder, why) for target in wanted]))


def main():
    parser = argparse.ArgumentParser(description=__doc__, formatter_class=argparse.RawDescriptionHelpFormatter)
    parser.add_argument("--check", action="store_true")
    parser.add_argument("--again", action="store_true")
    parser.add_argument("--unproved", action="store_true")
    parser.add_argument("--from", dest="folder", metavar="FOLDER")
    parser.add_argument("--over", metavar="FOLDER", help="of --again: as of tools/targets.py")
    parser.add_argument("--out", metavar="FOLDER")
    parser.add_argument("targets", nargs="*", metavar="TARGET")
    asked = parser.parse_args()
    if any(it not in targets.TARGETS for it in asked.targets) or asked.targets and not asked.check:
        parser.error("TARGET is %s, and needs --check" % " or ".join(targets.TARGETS))
    if asked.unproved and not asked.out:
        parser.error("--unproved needs --out: the crate gets proved libraries alone")
    need("readelf binutils")
    for target in asked.targets or targets.TARGETS:
        need(*(f"{targets.tool(target, tool)} {targets.TARGETS[target][4]}" for tool in ("strip", "nm", "objcopy")))
    if asked.check:
        return check(asked)
    place(asked)
    return 0


if __name__ == "__main__":
    sys.exit(main())
