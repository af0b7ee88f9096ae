#!/usr/bin/env python3
"""Tries what tools/release.py made, each in an empty folder, as someone without the repository and without a network would.

    tools/try-release.py [--only NAME ..]

It runs itself again in a namespace with no network but the loopback (unshare, of util-linux). The parts are:

    archives     the programs run; both examples in C are linked with the static and the shared library, by the lines of
                 pkg-config, make and CMake, and as C++; for aarch64 they run in qemu. The pages that nuigatre.h names exist
    crate        the package's tests run over an archive's library, by NUIGATRE_LIB_DIR; its example runs over its own libraries,
                 without any variable. `cargo publish --dry-run` takes it, for a registry of this folder
    python       pip installs each wheel; the first example of the package's page, and the command, run. The source distribution
                 makes a wheel with the same answers
    npm          npm installs the package; it is imported, required, and run by npx
    page         the page, alone in a folder, shows its example in Chromium and Firefox, if installed

An example has to make what the repository's examples have. The status is 1 if something differs or fails.
"""
import argparse
import os
import pathlib
import platform
import re
import shutil
import subprocess
import sys
import tarfile
import tempfile
import zipfile

from repository import TOP, need, run

sys.path += [str(TOP / "rust"), str(TOP / "checks")]
import browsers
import pkgconfig
import release
import targets
from archives import ARCHIVE, fail

DIST, EXAMPLES = TOP / "dist", TOP / "examples"
ASKED = "--realloc", "cabi_realloc", "size_of"
WARNINGS = "-O2", "-Wall", "-Wextra", "-Werror", "-pedantic"
PLAN = "app", EXAMPLES / "wcplan/main.wasm", f"old-notes={EXAMPLES}/wcplan/adapter.wasm", "is-ready"
ENVIRONMENT = {name: value for name, value in os.environ.items() if not name.startswith(("NUIGATRE", "PYTHON", "DOCS_RS", "CARGO_TARGET"))}


def found(pattern):
    paths = sorted(DIST.glob(pattern))
    return paths if paths else fail(f"dist has no {pattern}: tools/release.py makes it")


def unpacked(archive, empty):
    """The folder of an archive that is unpacked in an empty one."""
    with tarfile.open(archive) as file:
        file.extractall(empty, filter="data")
    return next(pathlib.Path(empty).iterdir())


def compare(archive, path, wanted=EXAMPLES / "trimmed.wasm"):
    if pathlib.Path(path).read_bytes() != wanted.read_bytes():
        fail(f"{archive.name}: {os.path.basename(path)} is another module than {wanted.relative_to(TOP)}")


def try_programs(archive, folder, empty, own):
    """Runs the programs of an archive, and shows their man pages."""
    for path in sorted(folder.glob("bin/*")):
        if path.name != "wctrim":  # whose arguments are commands alone
            run(path, "--version", cwd=empty, env=own)
        run("man", "--warnings", "-l", folder / f"share/man/man1/{path.name}.1", cwd=empty, env={**own, "MANPAGER": "cat"})
    if (folder / "bin/wctrim").exists():
        run(folder / "bin/wctrim", "trim", EXAMPLES / "adapter.wasm", "by-program.wasm", *ASKED, cwd=empty, env=own)
        compare(archive, pathlib.Path(empty, "by-program.wasm"))


def try_example(archive, runner, folder, name, own):
    """Runs both examples that were linked in a folder."""
    made, size = pathlib.Path(folder, "made.wasm"), pathlib.Path(folder, "trim").stat().st_size
    run(*runner, folder / "trim", EXAMPLES / "adapter.wasm", made, *ASKED, cwd=folder, env=own)
    compare(archive, made)
    if '"slot":3,"realloc":"cabi_import_realloc"' not in run(*runner, folder / "plan", EXAMPLES / "wcplan/notes.json", *PLAN, env=own):
        fail(f"{archive.name}: plan.c, {name}, prints another plan")
    made.unlink()
    print(f"{archive.name}: trim.c, {name}: {size} bytes", flush=True)


def ways_to_link(folder, compiler, own):
    """The ways to link an example in C with the libraries of an archive: what compiles it, and what comes after its source."""
    asked = [run("pkg-config", flag, "nuigatre", env=own).split() for flag in ("--cflags", "--libs", "--variable=heap")]
    static = [word if word != "-lnuigatre" else "-l:" + ARCHIVE for word in asked[1]]
    shared, as_c = [*asked[1], f"-Wl,-rpath,{folder / 'lib'}"], [compiler, "-std=c99", "-D_DEFAULT_SOURCE", *asked[0]]
    ways = {"static library": (as_c, [*asked[2], *static]), "shared library": (as_c, shared)}
    if compiler == "cc":
        ways["shared library as C++11"] = (["c++", "-x", "c++", "-std=c++11", *asked[0]], ["-x", "none", *shared])
    return ways


def try_archive(archive):
    """Unpacks an archive in an empty folder, and uses what is in it."""
    target = next(it for it in targets.TARGETS if f"-{it}-linux" in archive.name)
    compiler, runner = targets.TARGETS[target][2], targets.TARGETS[target][3] if platform.machine() != target else []
    with tempfile.TemporaryDirectory() as empty:
        folder = unpacked(archive, empty)
        run("sha256sum", "--check", "--quiet", "SHA256SUMS", cwd=folder)
        pages, named = folder / "share/doc/nuigatre", (folder / "include/nuigatre.h").read_text(encoding="utf-8")
        for name in re.findall(r"\b(?:docs|crates)/[\w/]+\.md", named):
            if not (pages / name).is_file():
                fail(f"{archive.name}: nuigatre.h names {name}, which is not in share/doc/nuigatre")
        own = {"PATH": os.environ["PATH"], "PKG_CONFIG_PATH": str(folder / "lib/pkgconfig"), "CC": compiler}
        try_programs(archive, folder, empty, own)
        source = pages / "examples/c"
        for way, (words, linked) in ways_to_link(folder, compiler, own).items():
            with tempfile.TemporaryDirectory() as room:
                for name in "trim", "plan":
                    run(*words, *WARNINGS, "-s", source / f"{name}.c", *linked, "-o", pathlib.Path(room, name), env=own)
                try_example(archive, runner, pathlib.Path(room), way, own)
        run("make", "-C", source, env=own)
        try_example(archive, runner, source, "make", own)
        if target == platform.machine():
            run("cmake", "-S", source, "-B", source / "made", env=own)
            run("cmake", "--build", source / "made", env=own)
            try_example(archive, runner, source / "made", "CMake", own)


def archives(_):
    need("c++ g++", "make make", "cmake cmake", "man man-db", "pkg-config pkgconf")
    for archive in found("*-linux.tar.gz"):
        try_archive(archive)


def registry(folder):
    """The address of a registry without packages, which it makes in a folder."""
    pathlib.Path(folder, "config.json").write_text('{"dl": "http://localhost/", "api": "http://localhost/"}\n', encoding="utf-8")
    who = ["-c", "user.name=release", "-c", "user.email=release"]
    for words in ["init", "--quiet"], ["add", "config.json"], [*who, "commit", "--quiet", "--message=empty"]:
        run("git", *words, cwd=folder)
    return f"file://{folder}"


def crate(_):
    """Runs the tests of the package in an empty folder, over the library of the archive, and its example over its own."""
    package, archive = found("*.crate")[0], found(f"*-{platform.machine()}-linux.tar.gz")[0]
    with tempfile.TemporaryDirectory() as one, tempfile.TemporaryDirectory() as other, tempfile.TemporaryDirectory() as third:
        folder, library = unpacked(package, one), unpacked(archive, other) / "lib"
        ran = run("cargo", "test", "--offline", cwd=folder, env={**ENVIRONMENT, "NUIGATRE_LIB_DIR": str(library)})
        passed = sum(int(line.split()[3]) for line in ran.splitlines() if line.startswith("test result: ok."))
        print(f"{package.name}: {passed} tests passed in an empty folder", flush=True)
        run("cargo", "publish", "--dry-run", "--allow-dirty", "--no-verify", "--index", registry(third), cwd=folder, env=ENVIRONMENT)
        print(f"{package.name}: cargo would publish it", flush=True)
        if (folder / "lib").is_dir():
            run("cargo", "run", "--offline", "--quiet", "--example", "trim", "--", EXAMPLES / "adapter.wasm", "made.wasm", *ASKED, cwd=folder, env=ENVIRONMENT)
            compare(package, folder / "made.wasm")
            print(f"{package.name}: its example runs over its own library")


def first_example(page, language):
    """The first code of a language on a page."""
    return re.search(rf"^```{language}\n(.*?)^```$", page, re.M | re.S)[1]


def try_python(package, room):
    """Installs a wheel or the source distribution, and uses it."""
    flags = ["--system-site-packages"] if package.suffix == ".gz" else []
    run(release.python(), "-m", "venv", *flags, room / "env", env=ENVIRONMENT)
    installing = ["--no-index", *(["--no-build-isolation"] if flags else [])]
    run(room / "env/bin/python", "-m", "pip", "install", *installing, package, cwd=room, env=ENVIRONMENT)
    for name in "adapter", "main":
        shutil.copyfile(EXAMPLES / f"{name}.wasm", room / f"{name}.wasm")
    text = "from importlib.metadata import metadata; print(metadata('nuigatre').get_payload() or metadata('nuigatre')['Description'])"
    page = run(room / "env/bin/python", "-c", text, cwd=room, env=ENVIRONMENT)
    said = run(room / "env/bin/python", "-c", first_example(page, "python"), cwd=room, env=ENVIRONMENT)
    compare(package, room / "trimmed.wasm")
    lines = run(room / "env/bin/nuigatre", "why", "adapter.wasm", "--import", "__main_module__", "size_of", cwd=room, env=ENVIRONMENT)
    own = run(room / "env/bin/python", "-m", "nuigatre", "scan", "main.wasm", cwd=room, env=ENVIRONMENT)
    if "my:demo/store open" not in said or "* func 7 copy\n" not in lines or "import old-files size_of func\n" not in own:
        fail(f"{package.name}: its example or its command print something else:\n{said}{lines}{own}")
    print(f"{package.name}: installed, its page's first example and its command run", flush=True)


def python(_):
    for package in [*found(f"*_{platform.machine()}.whl"), *found(f"nuigatre-{pkgconfig.member('version')}.tar.gz")]:
        with tempfile.TemporaryDirectory() as room:
            try_python(package, pathlib.Path(room))
    for package in found("*.whl"):
        target = next(it for it in targets.TARGETS if package.stem.endswith(it))
        with tempfile.TemporaryDirectory() as empty, zipfile.ZipFile(package) as file:
            library = unpacked(found(f"*-{target}-linux.tar.gz")[0], empty) / "lib/libnuigatre.so"
            if file.read("nuigatre/libnuigatre.so") != library.read_bytes():
                fail(f"{package.name}: its library is another than that of the archive")


def npm(_):
    need("npm npm", "node nodejs")
    package = found("*.tgz")[0]
    with tempfile.TemporaryDirectory() as empty:
        room = pathlib.Path(empty)
        run("npm", "install", "--offline", "--no-audit", "--no-fund", package, cwd=room, env=ENVIRONMENT)
        page = (room / "node_modules/nuigatre/README.md").read_text(encoding="utf-8")
        for name in "adapter", "main":
            shutil.copyfile(EXAMPLES / f"{name}.wasm", room / f"{name}.wasm")
        said = run("npx", "--offline", "nuigatre", *sorted((TOP / "web/example").iterdir()), cwd=room, env=ENVIRONMENT)
        if "my:notes/store@1.2.0: 4 of 4 functions" not in said:
            fail(f"{package.name}: its command prints something else:\n{said}")
        (room / "first.mjs").write_text(first_example(page, "js"), encoding="utf-8")
        run("node", "first.mjs", cwd=room, env=ENVIRONMENT)
        compare(package, room / "trimmed.wasm")
        required = 'require("nuigatre").then(({ Nuigatre }) => Nuigatre.load()).then((it) => console.log(it.scan(require("fs").readFileSync("main.wasm")).imports.length))'
        if run("node", "-e", required, cwd=room, env=ENVIRONMENT) != "4\n":
            fail(f"{package.name}: require gives something else")
        print(f"{package.name}: installed, its page's first example and its command run")


def page(_):
    source = found("nuigatre.html")[0]
    try:
        names = browsers.show_example(lambda path: shutil.copyfile(source, path))
    except browsers.Failed as why:
        fail(f"nuigatre.html, {why}")
    print("nuigatre.html: opened in " + " and ".join(names) if names else "nuigatre.html: not opened: no browser is installed")


PARTS = {"archives": archives, "crate": crate, "python": python, "npm": npm, "page": page}


def main():
    parser = argparse.ArgumentParser(description=__doc__, formatter_class=argparse.RawDescriptionHelpFormatter)
    parser.add_argument("--only", nargs="*", default=list(PARTS), choices=PARTS, metavar="NAME")
    parser.add_argument("--alone", action="store_true", help=argparse.SUPPRESS)
    asked = parser.parse_args()
    need("unshare util-linux", "ip iproute2")
    if not asked.alone:
        # a user who is not root needs a namespace of users too
        who = [] if os.geteuid() == 0 else ["--map-root-user"]
        again = 'ip link set lo up && exec "$0" "$@"'
        ran = subprocess.run(["unshare", *who, "--net", "sh", "-c", again, __file__, "--alone", "--only", *asked.only], check=False)
        sys.exit(ran.returncode)
    run("sha256sum", "--check", "--strict", "--quiet", "SHA256SUMS", cwd=DIST)
    for name in asked.only:
        PARTS[name](asked)


if __name__ == "__main__":
    main()
