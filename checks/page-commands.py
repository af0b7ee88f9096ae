#!/usr/bin/env python3
"""Runs the commands of pages that show an output, and compares it.

    checks/page-commands.py [--list] PROGRAM..

PROGRAM is the file of wctrim, wcwhy or wcplan, or web/why.mjs. Left out are commands of other programs, those whose input is
not in the repository, and those whose output is cut (a line ends in `..`). Of README.md none may be left out if its program is
given. A command with its output is one of

- a line `$ COMMAND` of a block of code, and the lines after it;
- a text that names a COMMAND and ends in prints, and the block after it; or one in which it prints nothing;
- a block of a command alone, after it a text that begins with prints, and the block after that.

The commands of a page run one after another in a folder that has the page's examples; one that begins with ../../ runs in
examples/wcplan or examples/wasi, whichever has its input. README's picture, docs/pictures/paths.dot, is what wcwhy prints of
examples/words.wasm. --list prints the commands. Each output that differs, and each command of README.md that is left out, is
printed, and then the status is 1.
"""
import argparse
import pathlib
import re
import shlex
import shutil
import subprocess
import sys
import tempfile

TOP = pathlib.Path(__file__).resolve().parent.parent
PROGRAMS = "wctrim", "wcwhy", "wcplan", "why.mjs"
GRAPH = "./wcwhy examples/words.wasm --dot"
COMMAND = r"(?:\./|\.\./\.\./|node web/)?(?:%s) [^`\n]+" % "|".join(PROGRAMS)


def parts(page):
    """A page's texts and its blocks of code, in order: (whether it is code, its lines)."""
    found, lines = [], []

    def end(is_code):
        if lines:
            found.append((is_code, lines.copy()))
            lines.clear()

    was_code = is_fenced = False
    for line in page.read_text(encoding="utf-8").split("\n") + [""]:
        is_fence = line.strip().startswith("```")
        # a line of code may begin as an item of a list does, as marked lines of `wcwhy` do, but not the first one
        is_item = re.match(r" +(?:[-*]|\d+\.) ", line) and not (was_code and lines)
        is_code = is_fenced or re.match(" {4,}", line) is not None and not is_item
        if is_fence or not line.strip() and not is_fenced:
            end(was_code)
            is_fenced ^= is_fence
            continue
        # in a list a text is set in too: code is after a blank line, and deeper
        if is_code != was_code and lines and not was_code:
            is_code = False
        if is_code != was_code:
            end(was_code)
        was_code = is_code
        lines.append(line)
    return [(is_code, dedented(lines) if is_code else [" ".join(map(str.strip, lines))]) for is_code, lines in found]


def dedented(lines):
    least = min(len(line) - len(line.lstrip()) for line in lines if line.strip())
    return re.sub(r" *\\\n *", " ", "\n".join(line[least:] for line in lines)).split("\n")


def commands(page):
    """The commands of a page, each with the lines that it prints."""
    found = parts(page)
    for at, (is_code, lines) in enumerate(found):
        after = found[at + 1:at + 3] + [(None, [""])] * 2
        if not is_code:
            shown = re.search(r"`(%s)`[^`]* prints(?:,[^.`]*)?$" % COMMAND, lines[0])
            nothing = re.search(r"`(%s)` prints nothing" % COMMAND, lines[0])
            if nothing:
                yield nothing[1], []
            elif shown and after[0][0]:
                yield shown[1], after[0][1]
        elif len(lines) == 1 and re.fullmatch(COMMAND, lines[0]) and after[0][1][0].startswith("prints") and after[1][0]:
            yield lines[0], after[1][1]
        else:
            for head, *rest in re.findall(r"^\$ (.*)\n?((?:(?!\$ ).*\n?)*)", "\n".join(lines), re.M):
                if re.fullmatch(COMMAND, head):
                    yield head, rest[0].rstrip("\n").split("\n") if rest[0].strip() else []


def commands_without_check(page):
    """The lines of a page's blocks of code that may be commands, but are none with an output."""
    known = [command for command, _ in commands(page)]
    for is_code, lines in parts(page):
        heads = [line for line in lines if line.startswith("$ ")] or lines[:1]
        yield from (head for head in heads if is_code and head[2:] not in known)


def folder_of(words, top):
    """The folder in which a command runs; nothing where its input is not there."""
    folders = [top] if not words[0].startswith("../../") else [top / "examples" / "wcplan", top / "examples" / "wasi"]
    inputs = words[1:2] if "wcwhy" in words[0] else words[2:3] if "wctrim" in words[0] else [word for word in words[1:] if re.search(r"\.(json|wasm)$", word)]
    for folder in folders:
        if all((folder / word.rpartition("=")[2]).exists() for word in inputs):
            return folder
    return None


def main():
    parser = argparse.ArgumentParser(description=__doc__, formatter_class=argparse.RawDescriptionHelpFormatter)
    parser.add_argument("--list", action="store_true")
    parser.add_argument("programs", nargs="*", metavar="PROGRAM", type=pathlib.Path)
    given = parser.parse_args()
    program = {name: [path.resolve()] for path in given.programs for name in PROGRAMS if path.name.startswith(name)}
    if "why.mjs" in program:
        program["why.mjs"].insert(0, "node")
    ran = left = wrong = 0
    for page in sorted([TOP / "README.md", *(TOP / "docs").glob("*.md"), TOP / "examples" / "README.md"]):
        is_top = page.parent == TOP
        for command in commands_without_check(page) if is_top else ():
            wrong += 1
            print("%s: `%s` is left out" % (page.name, command))
        with tempfile.TemporaryDirectory() as made:
            top = pathlib.Path(made)
            shutil.copytree(TOP / "examples", top / "examples", ignore=shutil.ignore_patterns("out"))
            drawn = (TOP / "docs" / "pictures" / "paths.dot").read_text(encoding="utf-8").rstrip("\n").split("\n")
            for command, wanted in [*commands(page), *([(GRAPH, drawn)] if is_top else [])]:
                words = shlex.split(command.removeprefix("node "))
                name, folder = words[0].rpartition("/")[2], folder_of(words, top)
                if given.list:
                    print("%s: %s" % (page.relative_to(TOP), command))
                is_cut = any(line.endswith("..") for line in wanted)
                if folder is None or name not in program or is_cut:
                    left += 1
                    if is_top and name in program:
                        wrong += 1
                        print("%s: `%s` is left out" % (page.name, command))
                    continue
                printed = subprocess.run([*program[name], *words[1:]], cwd=folder, stdout=subprocess.PIPE, stderr=subprocess.STDOUT,
                                         text=True, check=False).stdout.rstrip("\n")
                ran += 1
                if printed != "\n".join(wanted):
                    wrong += 1
                    print("%s: `%s` prints\n%s\nand not\n%s" % (page.relative_to(TOP), command, printed, "\n".join(wanted)))
    print("%d commands ran, %d left out, %d print something else" % (ran, left, wrong))
    return 1 if wrong else 0


if __name__ == "__main__":
    sys.exit(main())
