"""The library of calls, asked through ctypes: the one that was proved in this checkout, or else the packed one, or one that was
compiled without its proof."""
import ctypes
import os
import pathlib
import shutil
import subprocess
import sys

TOP = pathlib.Path(__file__).resolve().parent.parent
sys.path[:0] = [str(TOP / "tools"), str(TOP / "rust"), str(TOP / "checks")]
import archives
import symbols
import targets
import unproved
from repository import crates_below, files_of, kit_command
from row_format import Missing

CRATE = "nuigatre"
MACHINE = os.uname().machine
DONE, FAULT, TOO_SMALL, SAME, BAD_ARGUMENT, MEMORY = range(6)
# the calls without a seed
SEEDLESS = "dedupe", "scan", "fault_text"
# the numbers of calls on bytes, of which fault_text is asked
NUMBERS = {"dedupe": 0, "trim": 1, "why": 2, "scan": 3, "paths": 4}
# each byte of a buffer before a call
UNTOUCHED = b"\xee"
ROOM = 1 << 20


class Slice(ctypes.Structure):
    _fields_ = [("bytes", ctypes.c_char_p), ("length", ctypes.c_size_t)]


class Returned(ctypes.Structure):
    _fields_ = [("status", ctypes.c_uint32), ("fault", ctypes.c_uint32), ("length", ctypes.c_size_t),
                ("module_length", ctypes.c_size_t), ("position", ctypes.c_size_t)]


class Answer:
    """What a call returned: its numbers, the whole buffer, and as `bytes` the front of it that was written."""

    def __init__(self, returned, buffer):
        self.status, self.fault, self.length = returned.status, returned.fault, returned.length
        self.module_length, self.position, self.buffer = returned.module_length, returned.position, buffer
        self.bytes = buffer[: self.length] if self.status in (DONE, FAULT) and self.length <= len(buffer) else b""


def passed(value):
    """The arguments in C for a value: of bytes and of a list of bytes a pointer and a length."""
    if isinstance(value, bool):
        return [ctypes.c_bool(value)]
    if isinstance(value, int):
        return [ctypes.c_uint32(value)]
    if isinstance(value, bytes):
        return [ctypes.c_char_p(value), ctypes.c_size_t(len(value))]
    slices = [Slice(it, len(it)) for it in value]
    return [(Slice * max(len(slices), 1))(*slices), ctypes.c_size_t(len(slices))]


class Library:
    """A shared library; `said` is where it is from."""

    def __init__(self, path, said):
        self.path, self.said, self.loaded = path, said, ctypes.CDLL(str(path))
        self.loaded.nuigatre_rows_made.restype = ctypes.c_ulong

    def refuse(self, number):
        """From here on the growth of memory of this number is refused; none by 0."""
        self.loaded.nuigatre_rows_refuse(ctypes.c_ulong(number))

    def made(self):
        """How many growths were asked for since."""
        return self.loaded.nuigatre_rows_made()

    def ask(self, call, *arguments, room=ROOM):
        """Makes a call with a buffer of so many bytes."""
        name = "nuigatre_" + call
        function = getattr(self.loaded, symbols.numbered(name), None) or getattr(self.loaded, name)
        function.restype = Returned
        seed = [] if call in SEEDLESS else [ctypes.c_uint64(1), ctypes.c_uint64(2)]
        buffer = (ctypes.c_char * max(room, 1)).from_buffer_copy(UNTOUCHED * max(room, 1))
        words = [word for value in arguments for word in passed(value)]
        returned = function(*seed, *words, buffer, ctypes.c_size_t(room))
        return Answer(returned, buffer.raw[:room])

    def fault_text(self, call, number):
        """The text of a fault of a call on bytes, without the name of a missing export."""
        return self.ask("fault_text", NUMBERS[call], number, room=200).bytes.decode()


def is_fresh(archive, parts):
    """Whether an archive is there, and no source of its crates is newer."""
    if not archive.is_file():
        return False
    made = archive.stat().st_mtime
    return all(path.stat().st_mtime <= made for crate in crates_below(CRATE) for part in parts for path in files_of(crate, part, "") if path.is_file())


def ways_to_link(archive, folder, shared):
    """The commands of the compilers that may be here: cc, and the kit's."""
    heap, whole = str(TOP / "tests" / "heap.c"), ["--whole-archive", str(archive), "--no-whole-archive"]
    if shutil.which("cc"):
        yield [["cc", "-O1", "-fPIC", "-shared", heap, *("-Wl," + it for it in whole), "-o", shared]]
    if unproved.kit_folder():
        tools, code = pathlib.Path(unproved.kit_folder(), "toolchain", "bin"), str(folder / "heap.o")
        compiling = [tools / "clang", *unproved.TARGET, "-fPIC", "-O1", "-c", heap, "-o", code]
        yield [compiling, [tools / "ld.lld", "-shared", *whole, code, "-o", shared]]


def link(archive, folder):
    """The shared library of an archive, over tests/heap.c."""
    shared, why = folder / "libnuigatre.so", "cc is missing"
    for commands in ways_to_link(archive, folder, shared):
        try:
            for command in commands:
                targets.run(command)
            return shared
        except unproved.NotMade as failed:
            why = failed
    raise Missing("the library is not linked: %s" % why)


def packed(folder):
    """The packed library, where it is of these sources."""
    if not archives.LIB.is_dir() or MACHINE not in targets.TARGETS:
        raise Missing("rust/nuigatre/lib has no library for " + MACHINE)
    try:
        subprocess.run(["sha256sum", "--check", "--strict", "--quiet", "SHA256SUMS"], cwd=archives.LIB, check=True, capture_output=True)
    except (OSError, subprocess.CalledProcessError) as why:
        raise Missing("the checksums of rust/nuigatre/lib are wrong") from why
    differ = [name for name, now in (("form", str(symbols.form())), ("sources", archives.checksum_of_sources())) if archives.said(name) != now]
    if differ:
        raise Missing("the packed library is of other sources")
    archive = folder / archives.ARCHIVE
    archive.write_bytes(archives.in_crate(MACHINE))
    return archive, "packed, proved: " + archives.said("proved")


def prove():
    """The library, proved and built over what `rt ci` proved of the crates below in this checkout, in some minutes."""
    below, folder = __import__("build-proved"), TOP / "crates" / CRATE
    if unproved.kit_folder() is None or not all(map(below.is_fresh, crates_below(CRATE)[:-1])):
        raise Missing("the crates below the library are not proved in this checkout: rt ci proves them")
    OWN[1].parent.mkdir(parents=True, exist_ok=True)
    print("the library is proved and built over what rt ci proved here", flush=True)
    flags = ["--jobs", "2", "--toolchain", os.path.join(unproved.kit_folder(), "toolchain"), "--backend", "llvm", "-o", str(OWN[1])]
    if subprocess.run(kit_command("build", CRATE, flags), cwd=folder, check=False).returncode:
        raise Missing("the library is not proved")
    return OWN[1], "proved in this checkout"


# the archive that rust/build-proved.py makes, and the one that is made here
OWN = [TOP / "crates" / CRATE / "out" / it for it in (archives.ARCHIVE, "rows/" + archives.ARCHIVE)]


def archive_of(folder, is_of_checkout, is_proved):
    """The archive to ask, and where it is from. With `is_of_checkout` only what was proved in this checkout is
    taken; with `is_proved` nothing without a proof."""
    without = TOP / "rust" / "unproved" / archives.ARCHIVE
    for own in OWN:
        if is_fresh(own, ("src", "specs", "proofs")):
            return own, "proved in this checkout"
    if is_of_checkout:
        return prove()
    try:
        return packed(folder)
    except Missing as why:
        if is_proved:
            raise
        if not is_fresh(without, ("src",)):
            if unproved.kit_folder() is None:
                raise Missing("%s, and rt is not on PATH" % why) from why
            if subprocess.run([TOP / "rust" / "build-unproved.py"], check=False).returncode:
                raise Missing("%s, and it was not compiled" % why) from why
    return without, "compiled without its proof"


def library(folder, is_of_checkout=False, is_proved=False):
    """The library, linked in a folder; where nothing can be run from there, in the crate's."""
    archive, said = archive_of(folder, is_of_checkout, is_proved)
    try:
        return Library(link(archive, folder), said)
    except OSError:
        pass
    try:
        OWN[1].parent.mkdir(parents=True, exist_ok=True)
        return Library(link(archive, OWN[1].parent), said)
    except OSError as why:
        raise Missing("the library is not loaded: %s" % why) from why
