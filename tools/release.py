#!/usr/bin/env python3
"""Makes a release in dist: for each target an archive of the libraries, for x86-64 with the programs, and the packages for Rust,
Python and npm. Then tools/try-release.py tries all of it without a network.

    tools/release.py VERSION                                  of what is proved
    tools/release.py --unproved [--from FOLDER] VERSION       the same of what is compiled without proof, to try this script

VERSION is that of rust/nuigatre/Cargo.toml. The static libraries are those that tools/archives.py takes, and have the bytes of
those in the crate. The programs are those of `./wctrim --build`, `./wcplan --build` and `./wcwhy --build`. With --unproved the
libraries are FOLDER/TARGET/libnuigatre.a, or rust/unproved/libnuigatre.a, and the programs those that the scripts keep; names of
archives then have `-unproved`. Otherwise each library and program has to say that the kit's prover compiled it. None may be
older than its sources. Only the shared libraries are made here.

dist/nuigatre-VERSION-TARGET-linux.tar.gz has, in a folder of its name:

    bin/                 the programs, of x86-64
    lib/                 libnuigatre.a, libnuigatre.so with its heap over malloc, and pkgconfig/nuigatre.pc
    include/             nuigatre.h, and nuigatre_heap.c for programs over the static library
    share/               the license, the pages and the examples; with the programs their man pages, and completions for bash
    BUILT, SHA256SUMS    what it is made of, as tools/archives.py says it, with the compiler; and a checksum of each file

Beside the archives are

    nuigatre-VERSION.crate               from `cargo package`
    nuigatre-VERSION.tar.gz              the source distribution for Python, with the libraries of the Rust crate
    nuigatre-VERSION-py3-none-..whl      a wheel for each target, with the shared library of its archive
    nuigatre-VERSION.tgz                 the package for node, from `npm pack`
    nuigatre.html                        the page as one file
    README.md, CHANGELOG.md, LICENSE, SHA256SUMS

The status is 1 if something is missing or differs. It needs cargo, npm, cc, strip, pkg-config and man; Python with setuptools,
wheel, pip and venv; and for aarch64 the packages of Debian that tools/targets.py needs.
"""
import argparse
import os
import pathlib
import platform
import shutil
import subprocess
import sys
import tarfile
import tempfile

from repository import TOP, need, run

sys.path.append(str(TOP / "rust"))
import archives
import pkgconfig
import symbols
import targets
from archives import ARCHIVE, fail, fresh, made, put, put_text, sums

DIST = TOP / "dist"
PROGRAMS = "wctrim", "wcplan", "wcwhy"
# the pages, and what is beside them
PAGES = "README.md", "CHANGELOG.md", "LICENSE", "docs/*.md", "docs/pictures/*", "crates/*/README.md", "crates/*/MODEL.md", "examples/**/*"
# what a shared library of the archive exports
EXPORTS = "{ global: %s; local: *; };\n"


def libraries(asked):
    """The static library for each target of the release, and what makes it."""
    if not asked.unproved or asked.folder:
        return {target: made(target, asked.folder) for target in targets.TARGETS}
    return {"x86_64": (TOP / "rust/unproved" / ARCHIVE, "rust/build-unproved.py makes it")}


def programs(asked):
    """The programs of the release; of what is compiled without its proof those that are there."""
    for name in PROGRAMS:
        path = TOP / "crates" / name / "out" / (name + ".optimised" if asked.unproved else name)
        if path.is_file() or not asked.unproved:
            fresh(path, name, f"./{name} --build makes it")
            if not asked.unproved and not archives.is_of_proof(path):
                fail(f"{os.path.relpath(path, TOP)}: {archives.NO_PROOF}")
            yield name, path


def link_shared(target, archive, goal):
    """A shared library of the static one, with its heap over malloc, which exports the calls alone."""
    with tempfile.TemporaryDirectory() as folder:
        names = pathlib.Path(folder, "exports")
        names.write_text(EXPORTS % "; ".join(map(symbols.numbered, symbols.functions())), encoding="utf-8")
        form = f"{goal.name}.{symbols.form()}"
        heap = ["-I", TOP / "include", TOP / "include/nuigatre_heap.c"]
        whole = ["-Wl,--whole-archive", archive, "-Wl,--no-whole-archive"]
        flags = ["-O2", "-fPIC", "-shared", "-s", "-Wl,--gc-sections", f"-Wl,-soname,{form}"]
        run(targets.TARGETS[target][2], *flags, f"-Wl,--version-script,{names}", *heap, *whole, "-o", goal.parent / form)
        os.symlink(form, goal)


def fill(folder, target, library, asked):
    """All files of the archive for a target."""
    if target == platform.machine():
        for name, path in programs(asked):
            run("strip", put(path, folder, "bin", name, is_program=True))
            put(TOP / "docs" / f"{name}.1", folder, "share/man/man1", f"{name}.1")
            put(TOP / "docs" / f"{name}.bash", folder, "share/bash-completion/completions", name)
    archive = put(fresh(library[0], archives.CRATE, library[1]), folder, "lib", ARCHIVE)
    archives.strip(target, archive)
    why = archives.unfit(target, archive, not asked.unproved)
    if not why and not asked.unproved and archives.in_crate(target) != archive.read_bytes():
        why = "the library in rust/nuigatre/lib has other bytes: tools/archives.py puts it there"
    if why:
        fail(f"{os.path.relpath(library[0], TOP)}: {why}")
    link_shared(target, archive, folder / "lib/libnuigatre.so")
    put_text(pkgconfig.text("..", "../../include"), folder, "lib/pkgconfig/nuigatre.pc")
    for name in "nuigatre.h", "nuigatre_heap.c":
        put(TOP / "include" / name, folder, "include", name)
    for path in (path for pattern in PAGES for path in TOP.glob(pattern)):
        if path.is_file() and "out" not in path.relative_to(TOP).parts:
            put(path, folder, "share/doc/nuigatre", path.relative_to(TOP))
    compiler = run(targets.TARGETS[target][2], "--version").splitlines()[0]
    put_text(archives.built_of(not asked.unproved) + compiler + "\n", folder, "BUILT")
    files = [path for path in folder.rglob("*") if path.is_file() and not path.is_symlink()]
    put_text(sums(folder, files), folder, "SHA256SUMS")


def packed(folder, goal):
    """The folder as an archive, which says nothing of who made it and when."""
    def plain(entry):
        entry.uid = entry.gid = entry.mtime = 0
        entry.uname = entry.gname = ""
        return entry

    with tarfile.open(goal, "w:gz") as archive:
        archive.add(folder, folder.name, filter=plain)


def package(asked):
    """The Rust crate's package. It is not compiled here, but where it is tried."""
    goal = pathlib.Path(tempfile.mkdtemp(prefix="nuigatre."))
    try:
        allowed = ["--allow-dirty"] if asked.unproved else []
        crate = TOP / "rust/nuigatre"
        run("cargo", "package", "--offline", "--no-verify", *allowed, "--target-dir", goal, cwd=crate)
        found = list(goal.glob("package/*.crate"))
        return put(found[0], DIST, found[0].name)
    finally:
        shutil.rmtree(goal)


def python():
    """A Python that makes wheels."""
    for it in sys.executable, "/usr/bin/python3":
        if os.path.exists(it) and not subprocess.run([it, "-c", "import setuptools, wheel, pip, ensurepip"], capture_output=True, check=False).returncode:
            return it
    return fail("no Python makes wheels: apt-get install python3-pip python3-setuptools python3-venv python3-wheel")


def source_distribution():
    """The source distribution for Python. It is made of copies, since setuptools writes beside what it reads."""
    with tempfile.TemporaryDirectory() as room:
        own = pathlib.Path(room, "python")
        shutil.copytree(TOP / "python", own, ignore=shutil.ignore_patterns("*.so", "*.egg-info", "__pycache__", "build", "tests"))
        for name in "rust", "include":
            os.symlink(TOP / name, pathlib.Path(room, name))
        run(python(), "setup.py", "-q", "sdist", "--dist-dir", DIST, cwd=own)
        return DIST / f"nuigatre-{pkgconfig.member('version')}.tar.gz"


def wheel(target, sources, library):
    """A wheel with this library, made of the source distribution."""
    with tempfile.TemporaryDirectory() as room:
        with tarfile.open(sources) as file:
            file.extractall(room, filter="data")
        flags = ["--no-index", "--no-build-isolation", "--no-deps", "--wheel-dir", room]
        run(python(), "-m", "pip", "wheel", *flags, *pathlib.Path(room).iterdir(), env={**os.environ, "NUIGATRE_LIBRARY": str(library)})
        [found] = pathlib.Path(room).glob("*.whl")
        if f"manylinux_2_17_{target}" not in found.name:
            fail(f"{found.name}: the library needs more than glibc 2.17")
        return put(found, DIST, found.name)


def make(asked, version):
    """Makes all files of the release."""
    label = "-unproved" if asked.unproved else ""
    crate, sources = package(asked), source_distribution()
    yield from (crate, sources)
    for target, library in libraries(asked).items():
        name = f"nuigatre-{version}{label}-{target}-linux"
        with tempfile.TemporaryDirectory() as room:
            folder = pathlib.Path(room, name)
            fill(folder, target, library, asked)
            packed(folder, DIST / (name + ".tar.gz"))
            yield DIST / (name + ".tar.gz")
            yield wheel(target, sources, folder / "lib/libnuigatre.so")
    run("npm", "pack", "--silent", "--offline", "--pack-destination", DIST, TOP / "web")
    yield DIST / f"nuigatre-{version}.tgz"
    run(TOP / "web/one-file.py", DIST / "nuigatre.html")
    yield DIST / "nuigatre.html"
    for name in "README.md", "CHANGELOG.md", "LICENSE":
        yield put(TOP / name, DIST, name)


def main():
    parser = argparse.ArgumentParser(description=__doc__, formatter_class=argparse.RawDescriptionHelpFormatter)
    parser.add_argument("--unproved", action="store_true")
    parser.add_argument("--from", dest="folder", metavar="FOLDER")
    parser.add_argument("version", metavar="VERSION")
    asked = parser.parse_args()
    if asked.folder and not asked.unproved:
        parser.error("--from needs --unproved")
    need("cargo cargo", "cc gcc", "strip binutils", "npm npm", "pkg-config pkgconf", "man man-db")
    known = pkgconfig.member("version")
    if asked.version != known:
        fail(f"rust/nuigatre/Cargo.toml has the version {known}, and not {asked.version}")
    if not asked.unproved and (not archives.LIB.is_dir() or archives.reasons()):
        fail("the libraries in rust/nuigatre/lib are not of these sources: tools/archives.py puts them there")
    shutil.rmtree(DIST, ignore_errors=True)
    DIST.mkdir()
    paths = list(make(asked, known))
    put_text(sums(DIST, paths), DIST, "SHA256SUMS")
    for path in paths:
        print(f"{path.relative_to(TOP)}: {path.stat().st_size} bytes", flush=True)
    sys.exit(subprocess.run([TOP / "tools/try-release.py"], check=False).returncode)


if __name__ == "__main__":
    main()
