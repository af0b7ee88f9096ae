#!/usr/bin/env python3
"""Runs wctrim and wcplan where rows of tests can't: on files that the system refuses, on pipes and links, on one file as input
and output, and where output can't be printed. Compares statuses, lines and files with docs/WCTRIM.md and docs/WCPLAN.md.

    checks/statuses.py [WCTRIM [WCPLAN]]

The programs are by default those that `--build` makes; with one name wcplan is left out. The scripts wctrim and wcplan can be
named too. A line is printed for each run that differs; the status is then 1. Rows with files of each kind, and with each fault
and each argument, are in tests/rows/command.rows and tests/rows/wcplan.rows.
"""
import argparse
import contextlib
import os
import pathlib
import shutil
import stat
import subprocess
import sys
import tempfile

TOP = pathlib.Path(__file__).resolve().parent.parent
EXAMPLES = TOP / "examples"
HEADER = b"\0asm\1\0\0\0"
FUNCTION = HEADER + bytes.fromhex("01040160000003020100 07050101660000 0a040102000b")
THREE = HEADER + bytes.fromhex("01040160000002130301610166000001610166000001610166 0000")
RENAMED = HEADER + bytes.fromhex("010401600000021d0301610166000001610666205b76325d0000016106 66205b76335d0000")
LINES = "a: f -> f [v2]\na: f -> f [v3]\n"
FILES = {"three": THREE, "text": b"(module)", "function": FUNCTION, "locked": THREE}
PLAN = """main my:notes/store@1.2.0 [constructor]note sync slot 0 realloc -
main my:notes/store@1.2.0 [method]note.text sync slot 1 realloc cabi_realloc
adapter old-notes my:notes/store@1.2.0 [constructor]note sync slot 2 realloc -
adapter old-notes my:notes/store@1.2.0 summarize sync slot 3 realloc cabi_import_realloc
"""
# the system refuses root nothing, so another user runs what has to be refused
USER = {"user": 65534} if os.getuid() == 0 else {}


def held(folder):
    """The bytes of each file of a folder that can be read, but of `out`."""
    files = [it for it in os.scandir(folder) if it.name != "out" and stat.S_ISREG(it.stat(follow_symlinks=False).st_mode)]
    return {it.name: pathlib.Path(it.path).read_bytes() for it in files}


class Checked:
    """A program over the files of a folder, and how many of its runs differ."""

    failed = 0

    def __init__(self, program, folder):
        self.program, self.folder, self.out = os.path.abspath(program), pathlib.Path(folder), pathlib.Path(folder, "out")

    def differs(self, words, found, wanted):
        Checked.failed += 1
        print(f"{words}: {found}; wanted {wanted}")

    def run(self, words, stdout=subprocess.PIPE, **more):
        """The status of a run, and both its outputs, without the script's line on a program that is not proved."""
        how = {"stdin": subprocess.DEVNULL, "stdout": stdout, "stderr": subprocess.PIPE, "check": False}
        done = subprocess.run([self.program, *words], cwd=self.folder, **how, **more)
        said = [it for it in done.stderr.decode().splitlines(True) if ": not proved: " not in it]
        return done.returncode, (done.stdout or b"").decode(), "".join(said)

    @contextlib.contextmanager
    def unchanged(self, words):
        """No other file than `out` may change."""
        others = held(self.folder)
        yield
        if held(self.folder) != others:
            self.differs(words, "other files changed", "none")


class Trim(Checked):
    """Runs of wctrim, which prints faults to standard output."""

    def check(self, words, status, lines, out=None, before=None, **more):
        """One run: its status, its lines, and the bytes of the file `out`, or None; `before` are its bytes before the run."""
        self.out.unlink(missing_ok=True)
        if before is not None:
            self.out.write_bytes(before)
        with self.unchanged(words):
            found = (*self.run(words, **more)[:2], self.out.read_bytes() if self.out.exists() else None)
        if found != (status, lines, out):
            self.differs(words, found, (status, lines, out))

    def check_unprinted(self, words):
        """Lines that can't be printed, to a full device and to a pipe that nobody reads: status 1, and no file."""
        reading, writing = os.pipe()
        os.close(reading)
        with open("/dev/full", "wb") as full:
            for stdout, name in (full, "a full device"), (writing, "a closed pipe"):
                self.out.unlink(missing_ok=True)
                with self.unchanged(words):
                    status = self.run(words, stdout=stdout)[0]
                if status != 1 or self.out.exists():
                    self.differs(words, f"into {name}: status {status}, out is there: {self.out.exists()}", "1, False")
        os.close(writing)

    def check_vanishing(self, words, front, line):
        """A pipe whose name is removed once it is open, and which ends after these bytes: no file `out`."""
        self.out.unlink(missing_ok=True)
        pipe = self.folder / "pipe"
        os.mkfifo(pipe)
        running = subprocess.Popen([self.program, *words], cwd=self.folder, stdin=subprocess.DEVNULL, stdout=subprocess.PIPE)
        with open(pipe, "wb") as file:
            pipe.unlink()
            file.write(front)
        found = (running.communicate()[0].decode(), running.returncode, self.out.exists())
        if found != (line + "\n", 1, False):
            self.differs(words, found, (line + "\n", 1, False))

    def check_refused(self):
        """Files that can't be read or written, though they are there: `out` is as it was."""
        for words, line in (
            *(([*command, path, "out", *more], "cannot read " + path) for command, more in ((["dedupe"], []), (["trim"], ["f"]))
              for path in ("folder", "gone", "/proc/self/mem")),
            *(([*command, "function", path, *more], "cannot write " + path) for command, more in ((["dedupe"], []), (["trim"], ["f"]))
              for path in ("folder", "function/out", "/dev/full")),
            (["scan", "folder"], "cannot read folder"),
        ):
            self.check(words, 1, f"wctrim: {line}\n")
            self.check(words, 1, f"wctrim: {line}\n", b"as it was", b"as it was")
        self.folder.chmod(0o777)
        (self.folder / "locked").chmod(0)
        for words in ["dedupe", "locked", "out"], ["trim", "locked", "out", "f"], ["scan", "locked"]:
            self.check(words, 1, "wctrim: cannot read locked\n", **USER)
        (self.folder / "locked").chmod(0o444)
        self.check(["dedupe", "three", "locked"], 1, LINES + "wctrim: cannot write locked\n", **USER)

    def check_all(self):
        for name, content in FILES.items():
            (self.folder / name).write_bytes(content)
        (self.folder / "folder").mkdir()
        (self.folder / "gone").symlink_to("nothing")
        for words in "", "scan", "scan three", "scan text", "dedupe three out", "dedupe text out", "trim text out f":
            self.check_unprinted(words.split())
        # IN is OUT, and what was in OUT is longer than what is written
        self.check(["dedupe", "out", "out"], 0, LINES, RENAMED, THREE)
        for words, stage in (["dedupe", "out", "out"], "Dedupe"), (["trim", "out", "out", "f"], "Trim"):
            self.check(words, 1, f"wctrim: {stage}: Read: NotWasm\n", b"(module)", b"(module)")
        self.check(["dedupe", "three", "out"], 0, LINES, RENAMED, b"longer than what is written: " + 9 * THREE)
        self.check_vanishing(["dedupe", "pipe", "out"], THREE[:12], "wctrim: Dedupe: Read: Truncated")
        self.check_vanishing(["trim", "pipe", "out", "f"], THREE[:12], "wctrim: Trim: Read: Truncated")
        self.check_vanishing(["scan", "pipe"], b"", "wctrim: Read: NotWasm")
        self.check_refused()


class Plan(Checked):
    """Runs of wcplan, which prints faults to standard error."""

    words = ["notes.json", "app", "main.wasm", "--adapt", "old-notes=adapter.wasm", "--adapter-export", "old-notes=is-ready"]

    def check(self, words, status, printed, said, **more):
        """A run that writes no file in the folder."""
        with self.unchanged(words):
            found = self.run(words, **more)
        if found != (status, printed, said):
            self.differs(words, found, (status, printed, said))

    def check_written(self, directory):
        """A plan whose modules are written into a directory."""
        words = [*self.words, "--out", directory]
        self.check(words, 0, PLAN, "")
        wanted = {"main.wasm": self.folder / "main.wasm", "old-notes.wasm": self.folder / "trimmed.wasm"}
        made = held(self.folder / directory)
        if made != {name: path.read_bytes() for name, path in wanted.items()}:
            self.differs(words, sorted(made), sorted(wanted))

    def check_plan(self):
        """A plan whose files are written into directories that are there or not, or can't be printed."""
        (self.folder / "made").mkdir()
        self.check_written("made")
        self.check_written("new/deep")
        self.check([*self.words, "--out", "notes.json"], 1, "", "wcplan: cannot make directory notes.json: file exists\n")
        (self.folder / "made" / "old-notes.wasm").unlink()
        (self.folder / "made" / "old-notes.wasm").mkdir()
        self.check([*self.words, "--out", "made"], 1, "", "wcplan: cannot write made/old-notes.wasm: is a directory\n")
        with open("/dev/full", "wb") as full:
            for each in self.words, [*self.words, "--json"], [], ["--help"], ["-h"], ["--version"]:
                said = '{"text":"cannot print","place":null}\n' if "--json" in each else "wcplan: cannot print\n"
                self.check(each, 1, "", said, stdout=full)

    def check_replaced(self):
        """Files of --out are replaced as a whole: a link is not followed, and what can't be written stays as it was."""
        linked, aside = self.folder / "linked", self.folder / "aside"
        linked.mkdir()
        aside.write_bytes(b"aside")
        (linked / "main.wasm").symlink_to(aside)
        self.check_written("linked")
        if aside.read_bytes() != b"aside" or (linked / "main.wasm").is_symlink():
            self.differs([*self.words, "--out", "linked"], "a link was followed", "a file in its place")
        aside.unlink()
        # a file that a stopped call left
        (linked / ".new-0").write_bytes(b"left")
        self.check([*self.words, "--out", "linked"], 0, PLAN, "")
        if held(linked).get(".new-0") != b"left" or len(held(linked)) != 3:
            self.differs([*self.words, "--out", "linked"], sorted(held(linked)), "the file that was left, and the two of the plan")
        (linked / ".new-0").unlink()
        # a directory in which nothing can be made
        closed = linked / "read-only"
        closed.mkdir()
        for folder in linked, closed:
            (folder / "main.wasm").write_bytes(b"as it was")
        self.folder.chmod(0o755)
        closed.chmod(0o555)
        path = os.path.relpath(closed, self.folder)
        self.check([*self.words, "--out", path], 1, "", f"wcplan: cannot write {path}/main.wasm: permission denied\n", **USER)
        if held(closed) != {"main.wasm": b"as it was"}:
            self.differs([*self.words, "--out", path], held(closed), "main.wasm as it was")
        closed.chmod(0o755)

    def check_help(self):
        """The script prints the program's help without a program."""
        for asked in "--help", "-h":
            script = subprocess.run([TOP / "wcplan", asked], stdout=subprocess.PIPE, text=True, check=False).stdout
            self.check([asked], 0, script, "")

    def check_all(self):
        for name in "notes.json", "main.wasm", "adapter.wasm", "trimmed.wasm":
            shutil.copy(EXAMPLES / "wcplan" / name, self.folder)
        self.check_plan()
        self.check_replaced()
        self.check_help()


def main():
    parser = argparse.ArgumentParser(description=__doc__, formatter_class=argparse.RawDescriptionHelpFormatter)
    parser.add_argument("programs", nargs="*", metavar="PROGRAM")
    programs = parser.parse_args().programs
    if not programs:
        programs = [TOP / "wctrim", TOP / "wcplan"]
        for script in programs:
            subprocess.run([script, "--build"], check=True)
    for program, checked in zip(programs, (Trim, Plan)):
        with tempfile.TemporaryDirectory() as folder:
            checked(program, folder).check_all()
    print("all agree" if Checked.failed == 0 else f"{Checked.failed} differ")
    return 1 if Checked.failed else 0


if __name__ == "__main__":
    sys.exit(main())
