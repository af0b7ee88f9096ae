"""The wheel has the shared library in it: the file that NUIGATRE_LIBRARY names, or nuigatre/libnuigatre.so, which
tools/targets.py of the repository puts there; else cc links it of the proved library that the Rust crate has packed, or that
the source distribution has. So it is of one kind of machine, and of any Python. What it asks of the C library says which
systems the wheel is for: with symbols of glibc 2.17 and before alone it is a manylinux wheel."""

import gzip
import os
import platform
import re
import shlex
import shutil
import subprocess
import tempfile

from setuptools import setup
from setuptools.command.build_py import build_py
from setuptools.command.sdist import sdist
from setuptools.dist import Distribution

try:
    from setuptools.command.bdist_wheel import bdist_wheel
except ImportError:
    from wheel.bdist_wheel import bdist_wheel

HERE = os.path.dirname(os.path.abspath(__file__))
LIBRARY = os.path.join(HERE, "nuigatre", "libnuigatre.so")
# a source distribution has these files under the same names
PACKED, HEADERS = os.path.join("rust", "nuigatre", "lib"), "include"
TOP = HERE if os.path.isdir(os.path.join(HERE, PACKED)) else os.path.dirname(HERE)
LINK = ["-O2", "-fPIC", "-shared", "-s", "-fvisibility=hidden", "-Wl,-soname,libnuigatre.so", "-Wl,-z,defs", "-Wl,--gc-sections"]
# the machines by their numbers in ELF
MACHINES = {62: "x86_64", 183: "aarch64"}


def form(*path):
    """The number of the form of calls that a file says."""
    with open(os.path.join(TOP, *path), encoding="utf-8") as file:
        return re.search(r"^(?:form|ABI =|#define NUIGATRE_ABI) (\d+)$", file.read(), re.M)[1]


def link(folder):
    """Links the shared library of the packed one in a folder."""
    if len({form(PACKED, "BUILT"), form(HEADERS, "nuigatre.h"), form(HERE, "nuigatre", "_calls.py")}) > 1:
        raise SystemExit("the packed library, its header and the package have calls of different forms")
    machine, archive, made = platform.machine(), os.path.join(folder, "libnuigatre.a"), os.path.join(folder, "libnuigatre.so")
    packed = os.path.join(TOP, PACKED, machine + "-unknown-linux-gnu", "libnuigatre.a.gz")
    if not os.path.isfile(packed):
        raise SystemExit(f"there is no {packed}: NUIGATRE_LIBRARY names a libnuigatre.so for this machine")
    with gzip.open(packed) as source, open(archive, "wb") as goal:
        shutil.copyfileobj(source, goal)
    heap = os.path.join(TOP, HEADERS, "nuigatre_heap.c")
    whole = ["-Wl,--whole-archive", archive, "-Wl,--no-whole-archive"]
    words = [*shlex.split(os.environ.get("CC") or "cc"), *LINK, "-I", os.path.dirname(heap), heap, *whole, "-o", made]
    try:
        subprocess.run(words, check=True)
    except (OSError, subprocess.CalledProcessError) as why:
        raise SystemExit(f"libnuigatre.so was not linked ({why}): a C compiler is needed, `cc` or what CC names") from why
    return made


def library(folder):
    """The shared library, which may be made in the folder."""
    given = os.environ.get("NUIGATRE_LIBRARY")
    if given and not os.path.isfile(given):
        raise SystemExit(f"NUIGATRE_LIBRARY names {given}, which is no file")
    return given or (LIBRARY if os.path.isfile(LIBRARY) else link(folder))


def platform_of(path):
    """The tags of the systems that a shared library is for; None where they are those of this one alone."""
    with open(path, "rb") as file:
        data = file.read()
    machine = MACHINES.get(int.from_bytes(data[18:20], "little"))
    needed = {it for it in re.findall(rb"\0(lib[\w.+-]*\.so[.\d]*)(?=\0)", data) if not it.startswith(b"libnuigatre.so")} - {b"libc.so.6"}
    newest = max((int(it) for it in re.findall(rb"GLIBC_2\.(\d+)", data)), default=99)
    is_old = data[:4] == b"\x7fELF" and machine and not needed and newest <= 17
    return f"manylinux_2_17_{machine}.manylinux2014_{machine}" if is_old else None


class BinaryDistribution(Distribution):
    def has_ext_modules(self):
        return True


class WithLibrary(build_py):
    def run(self):
        super().run()
        with tempfile.TemporaryDirectory() as folder:
            shutil.copyfile(library(folder), os.path.join(self.build_lib, "nuigatre", "libnuigatre.so"))


class WithSources(sdist):
    """What the library is linked of is in the source distribution."""

    def make_release_tree(self, base_dir, files):
        super().make_release_tree(base_dir, files)
        for part in PACKED, HEADERS:
            shutil.copytree(os.path.join(TOP, part), os.path.join(base_dir, part), dirs_exist_ok=True)


class OfAnyPython(bdist_wheel):
    def get_tag(self):
        own = os.path.join(self.get_finalized_command("build_py").build_lib, "nuigatre", "libnuigatre.so")
        return "py3", "none", platform_of(own) or super().get_tag()[2]


setup(distclass=BinaryDistribution, license="Apache-2.0 WITH LLVM-exception",
      cmdclass={"build_py": WithLibrary, "sdist": WithSources, "bdist_wheel": OfAnyPython})
