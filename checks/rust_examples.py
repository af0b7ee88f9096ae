"""The examples of the Rust crate of rust/nuigatre, built; and the plans that examples print, as `wcplan` does."""
import dataclasses
import os
import subprocess

TOP = os.path.dirname(os.path.dirname(os.path.abspath(__file__)))
CRATE = os.path.join(TOP, "rust", "nuigatre")


def built_example(name):
    """The path of an example, which cargo builds where it is not built, or older than its sources."""
    command = ["cargo", "build", "--offline", "--release", "--quiet", "--example", name]
    subprocess.run(command, cwd=CRATE, check=True)
    target = os.environ.get("CARGO_TARGET_DIR", os.path.join(CRATE, "target"))
    return os.path.join(target, "release", "examples", name)


def lines_of(command, folder):
    """The lines that a command prints; none where it fails."""
    ran = subprocess.run(command, cwd=folder, capture_output=True, text=True, check=False)
    return ran.stdout.splitlines() if ran.returncode == 0 else []


@dataclasses.dataclass(frozen=True)
class Planned:
    """A component that is planned: the folder of its files; what an example is passed: the worlds, the world, the main
    module, the adapter as NAME=FILE, and the export that the adapter has to have; and a core export that can be called, with
    what node prints then."""
    folder: str
    arguments: tuple
    export: str
    printed: tuple

    def lines_of(self, wcplan):
        """The lines of the program `wcplan`; None where the modules are not made."""
        worlds, world, module, adapter, exported = self.arguments
        if not os.path.exists(os.path.join(self.folder, module)):
            return None
        name = adapter.partition("=")[0]
        command = [wcplan, worlds, world, module, "--adapt", adapter, "--adapter-export", name + "=" + exported]
        return lines_of(command, self.folder)


def planned(folder, arguments, export, *printed):
    return Planned(os.path.join(TOP, "examples", folder), arguments, export, printed)


# that of examples/wasi is there where examples/wasi/make.sh has made its modules
PLANS = [
    planned("wcplan", ("notes.json", "app", "main.wasm", "old-notes=adapter.wasm", "is-ready"), "is-ready", "is-ready: 1"),
    planned("wasi", ("wasi-command.json", "wasi:cli/command", "out/hello.wasm", "wasi_snapshot_preview1=out/adapter.wasm",
                     "wasi:cli/run@0.2.6"), "wasi:cli/run@0.2.6#run", "hello", "wasi:cli/run@0.2.6#run: 0"),
]
