#!/usr/bin/env python3
"""Checks the scripts themselves, without any program that is proved or compiled.

    checks/scripts.py

- Names: pyflakes reads the scripts in Python, `sh -n` and shellcheck those in shell. A tool that is not installed is left out.
- Runs: the smallest run of each script that needs no program, or whose program can be replaced by one that copies its
  input. checks/all asks the other scripts for their --help.
- Help: `--help` of the programs' scripts prints what the programs print, also if no `rt` is on PATH.
- Keys: the key of an edit changes with the definitions to which its function's clauses lead.
- Man pages, completions, versions, and the path in docs/WHY.md agree with what they are made of.

A line is printed for each thing that is wrong; the status is then 1.
"""
import argparse
import concurrent.futures
import os
import pathlib
import re
import shutil
import subprocess
import sys
import tempfile

TOP = pathlib.Path(__file__).resolve().parent.parent
FOLDERS = "checks", "bench", "edits", "rust", "tools", "tests"
sys.path += [str(TOP / folder) for folder in FOLDERS]
from repository import lines_of_crates, read

# Stands in for a program: what it writes is what it reads.
STAND_IN = """#!/bin/sh
case ${1-} in
    dedupe | trim) cp "$2" "$3" ;;
esac
"""
# An invented record of the gate, of two crates.
RECORD = """{"commit": "none", "answer": "2 passed, 0 failed", "load": 0, "cores": [0], "clock": 60, "other": 6, "crates": {
"wc_maps": {"proof": 30, "edits": 0, "first": 0, "last": 30}, "wc_texts": {"proof": 60, "edits": 6, "first": 0, "last": 60}}}"""
# Runs of scripts: the command, in which {program} replaces a program, and {record} is a record of the gate; its status; and
# a pattern of its last line. A script may also say that a tool is not installed.
RUNS = [
    ("checks/first-run.sh --stand-in", 0, r"all as wanted"),
    ("bench/trimming.py --program {program} --most 10000 --rounds 1 chain", 0, r"chain +10000 "),
    ("bench/slow-inputs.py --wctrim {program} --wcplan {program} --wc-tests {program} --parts 2 given-keys", 0, r"0 of 1 cases past a limit"),
    ("bench/trimming.py --check", 0, r"\d+ rows"),
    ("bench/slow-inputs.py --check", 0, r"\d+ rows"),
    ("bench/gate-costs.py --check", 0, r"\d+ figures"),
    ("bench/gate-costs.py --join {record}", 0, r"Run `none`: 1 minutes by the clock"),
    ("checks/fuzz.py --program {program} --memory 0 --cases 3", 0, r"3 cases of \d+ modules .* 0 went wrong"),
    ("checks/damaged-worlds.py --program {program} --cases 3", 1, r"3 cases .*, 3 went wrong"),
    ("tests/rows.py --proved tests/rows/unfolding.rows", 0, r"\d+ passed, 0 failed"),
    ("checks/random-names.py 3", 0, r"in "),
    ("checks/page-commands.py", 0, r"0 commands ran, \d+ left out, 0 print something else"),
    ("tools/break-rows.py", 0, r"\d+ files, 0 wrong"),
    ("edits/batches.py --plan wc_maps", 0, r"wc_maps: \d+ of \d+ edits, \d+ functions"),
]
NOT_INSTALLED = re.compile(r"is missing|is not installed")


def scripts():
    """The files of the folders that are scripts, or parts of one."""
    for folder in FOLDERS:
        for path in sorted((TOP / folder).iterdir()):
            if path.is_file() and (path.suffix in (".py", ".sh") or os.access(path, os.X_OK)):
                yield path
    yield from (TOP / name for name in ("wctrim", ".ci/run"))


def wrong_names(paths):
    """What pyflakes says of scripts in Python: which names are not defined, or not used."""
    if not shutil.which("pyflakes3"):
        print("names: left out: pyflakes3 is missing: apt-get install pyflakes3")
        return []
    return ran(["pyflakes3", *paths])[1].replace(f"{TOP}/", "").splitlines()


def ran(command, **how):
    done = subprocess.run(command, cwd=TOP, stdout=subprocess.PIPE, stderr=subprocess.STDOUT, stdin=subprocess.DEVNULL, text=True,
                          errors="replace", check=False, **how)
    return done.returncode, done.stdout


def wrong_shell(paths):
    """What a shell, and shellcheck, say of scripts in shell."""
    for tool in ["sh", "-n"], ["shellcheck", "-x", "-S", "warning"]:
        for path in paths if shutil.which(tool[0]) else []:
            status, said = ran([*tool, path])
            if status:
                yield f"{path.relative_to(TOP)}: {tool[0]}: {said.strip()}"


def wrong_runs():
    """The runs that end otherwise than RUNS says."""
    with tempfile.TemporaryDirectory() as folder:
        program, gate = pathlib.Path(folder, "program"), pathlib.Path(folder, "record.json")
        program.write_text(STAND_IN, encoding="utf-8")
        program.chmod(0o755)
        gate.write_text(RECORD, encoding="utf-8")
        # one of them waits for most of its time
        with concurrent.futures.ThreadPoolExecutor(2) as threads:
            commands = [command.format(program=program, record=gate).split() for command, _, _ in RUNS]
            answers = list(threads.map(ran, commands))
        for (command, wanted, pattern), (status, said) in zip(RUNS, answers):
            last = (said.strip().splitlines() or [""])[-1]
            if (status != wanted or not re.match(pattern, last)) and not NOT_INSTALLED.search(last):
                yield f"{command}: status {status}: " + "\n".join(said.strip().splitlines()[-6:])


def usage_on(page):
    """The usage text of a program's page."""
    block = page[page.index("    usage: ") :].split("\n\n")[0]
    return "".join(line[4:] + "\n" for line in block.split("\n"))


def wrong_help():
    """Which script of a program prints another help than its page and its gate have, or needs more than a second for it."""
    programs = [name for name, _, _ in lines_of_crates() if (TOP / name).is_symlink() or name == "wctrim"]
    for name in [*programs, "wctests"]:
        status, said = ran([TOP / name, "--help"], env={"PATH": "/usr/bin:/bin", "NUIGATRE_CACHE": "/nowhere"}, timeout=20)
        if name == "wctests":
            if status or "N passed, M failed" not in said:
                yield f"{name} --help: status {status}: {said}"
            continue
        usage = read("crates", name, "stdout")
        if status != (2 if name == "wctrim" else 0) or not said.startswith(usage) or (name != "wctrim" and "  --version " not in said):
            yield f"{name} --help: status {status}: {said[:300]}"
        if usage != usage_on(read("docs", name.upper() + ".md")):
            yield f"docs/{name.upper()}.md has another usage text than crates/{name}/stdout"


def wrong_versions():
    """Which program says that it is of another version than the packages are."""
    wanted = re.search(r'(?m)^version = "(.*)"$', read("rust", "nuigatre", "Cargo.toml"))[1]
    for path in sorted((TOP / "crates").glob("*/src/usage.rt")):
        said = re.search(r'VERSION: &str = "(\w+) (\S+) \(wit-component \S+\)\\n"', path.read_text(encoding="utf-8"))
        if said and said[2] != wanted:
            yield f"{said[1]} --version: {said[2]}, and the packages have {wanted}"


def wrong_keys():
    """Whether the key of an edit leaves out what its function's clauses lead to."""
    from batches import Edit, Sources
    edit = "file: src/lib.rt\nold: n + 1\nnew: n\n"
    texts = {
        "src/lib.rt": "ghost use Rattle.x.specs.Lib.{after as next_of};\n\npub fn next(n: u64) -> u64\n    ensures { result ≡ next_of n.now }\n{\n    n + 1\n}\n",
        "specs/Lib.antt": "abbrev pub after : ℕ → ℕ\n\nafter n = one_more n\n\nabbrev pub one_more : ℕ → ℕ\n\none_more n = suc n\n\nabbrev pub other : ℕ → ℕ\n\nother n = n\n",
    }
    key = lambda file, old, new: Edit("a-b", edit, Sources({**texts, file: texts[file].replace(old, new)})).key
    same = key("src/lib.rt", "-", "-")
    for changed, file, old, new in [(True, "src/lib.rt", "next_of n.now", "result"), (True, "specs/Lib.antt", "suc n", "n"),
                                    (True, "specs/Lib.antt", "after n = one_more n", "after n = n"), (False, "specs/Lib.antt", "other n = n", "other n = suc n")]:
        if (key(file, old, new) != same) != changed:
            yield f"the key of an edit is {'as before' if changed else 'another'} with {new} in place of {old} in {file}"


def wrong_pages():
    """What of the programs' man pages and completions says nothing."""
    for path in sorted((TOP / "docs").glob("*.1")):
        for link in re.findall(r"\((?:how|why|below|there|its members|faults)\)", path.read_text(encoding="utf-8")):
            yield f"docs/{path.name}: {link} is a link's words"
        page = read("docs", path.stem.upper() + ".md")
        for code in re.findall(r"`( +[^ `\n][^`\n]*?)`", re.sub(r"(?m)^    .*$|`[^ `\n][^`\n]*`", "", page)):
            if not code.endswith(" ") and "\\ " * (len(code) - len(code.lstrip())) not in path.read_text(encoding="utf-8"):
                yield f"docs/{path.name}: `{code}` has no blanks at its front"
    path = re.search(r"(?m)^wasi:filesystem/preopens\S* get-directories\n(?:(?:  |\* ).*\n)*", read("docs", "WHY.md"))
    if not path or re.findall(r"func (\d+)", path[0]) != re.findall(r"func (\d+)", read("docs", "pictures", "why.dot")):
        yield "docs/WHY.md has another path than docs/pictures/why.dot"
    asked = """compopt() { :; }; cd examples/wcplan; . ../../docs/wcplan.bash
        for option in --why --export --adapter-export; do
            COMP_WORDS=(wcplan notes.json app main.wasm --adapt old-notes = adapter.wasm "$option" "") COMP_CWORD=9
            _wcplan; echo "$option ${COMPREPLY[*]}"
        done"""
    wanted = "--why all $root my:notes/store@1.2.0\n--export my:notes/store@1.2.0\n--adapter-export old-notes=\n"
    status, said = ran(["bash", "-c", asked]) if shutil.which("bash") else (0, wanted)
    if status or said != wanted:
        yield f"docs/wcplan.bash offers {said}"


def main():
    argparse.ArgumentParser(description=__doc__, formatter_class=argparse.RawDescriptionHelpFormatter).parse_args()
    python, shell, count = [], [], 0
    for count, path in enumerate(scripts(), 1):
        head = path.read_text(encoding="utf-8", errors="replace").partition("\n")[0]
        if "python" in head or path.suffix == ".py":
            python.append(path)
        elif path.suffix == ".sh" or head.endswith("/sh") or head.startswith("# shellcheck"):
            shell.append(path)
    wrong = [*wrong_names(python), *wrong_shell(shell), *wrong_runs(), *wrong_help(), *wrong_versions(), *wrong_keys(), *wrong_pages()]
    for line in wrong:
        print(line)
    print(f"{count} scripts, {len(RUNS)} runs, {len(wrong)} wrong")
    return 1 if wrong else 0


if __name__ == "__main__":
    sys.exit(main())
