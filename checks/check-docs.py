#!/usr/bin/env python3
"""Checks all pages of the repository (README.md, docs/, the pages of the crates and of the other folders) against it.

    checks/check-docs.py

It prints a line for each thing that is wrong, and ends with status 1 where there is one. Checked are:

- links: the file of each relative link is there, and has a heading for the anchor;
- tables: each row has as many cells as the head;
- sentences: none has more than 40 words. A text in backquotes is one word. Code, headings and quotations (lines that
  begin with `>`) are left out; cells of tables, and items of lists, are texts of their own;
- names in backquotes: paths of files are there. The words of a name, of a path of names (`a::b`) and of a call
  (`a.b(c)`) occur in the sources, comments aside; so do names of two words and more with hyphens, as those of edits;
- commands, in backquotes and in blocks of code: of the repository's scripts the script is there, and its source has each
  option; of the programs the usage text has it (`checks/page-commands.py` runs them);
- README.md: its lines have at most 120 columns, and KIT is one line;
- docs/MAP.md has a row for each crate, in the order of crates.txt;
- docs/PERFORMANCE.md: each table comes after a date in its section;
- a library's README: each public function says in its source what it does, and each variant of a fault when it comes; a
  function is on the page unless it is of a type. Under "What is promised", also in docs/PATHS.md, each function has the
  clauses that are named after it. Under "What functions require" is each function with a `requires`, and no other: in
  the first column of a table, or in a list after a colon;
- sources, definitions and lemmas say at their head what is in them;
- docs in sources name the thing: their first line doesn't begin with "What" or "The same".
"""

import argparse
import functools
import glob
import os
import re
import sys

sys.path.append(os.path.join(os.path.dirname(os.path.dirname(os.path.abspath(__file__))), "tools"))
from repository import TOP, exports_of_crate, functions_of, libraries, used_by_crates

TOP = str(TOP)
MOST_WORDS = 40
# parts of paths of files that are made, and may be missing
MADE = ("out/", "bench/data", "checks/data", "lang/antt/", "target/", "rust/unproved", "nuigatre.wasm")
# files that programs and scripts write
WRITTEN = {"out.wasm", "main.wasm", "adapter.wasm", "hello.wasm", "no-repeats.wasm", "one-repeat.wasm", "repeats-10000.wasm",
           "repeats-100000.wasm"}
# names of other crates, of the kit and of other tools, which no source of the repository has
FOREIGN = {"TypeRef", "Default", "Dec", "ValidatedAdapter", "wasm-component-ld", "wasm-encoder", "wasmparser", "wit-parser",
           "anyhow", "serde", "serde_json", "escape_debug", "deps", "Cargo", "toml", "_start", "fd_close", "fd_fdstat_get", "unfold", "nice"}

faults = []


def fault(document, number, text):
    faults.append(f"{os.path.relpath(document, TOP)}:{number}: {text}")


def read(path):
    with open(path, encoding="utf-8", errors="replace") as file:
        return file.read()


def files(*pattern):
    return sorted(glob.glob(os.path.join(TOP, *pattern), recursive=True))


def documents():
    folders = ("docs", "crates", "checks", "bench", "edits", "examples", "rust")
    found = files("*.md") + [path for folder in folders for path in files(folder, "**", "*.md")]
    return [path for path in found if not re.search(r"/(data|out|target)/", os.path.relpath(path, TOP))]


# Documents: their texts, links, sentences and names.


def texts_of(document):
    """The texts of a document, without code: (number of the first line, kind, text). A kind is `heading`, `cell`,
    `quotation` or `text`; the cells of one row have one number."""
    found = []
    paragraph, first, is_fenced = [], 0, False

    def end():
        if paragraph:
            kind = "quotation" if paragraph[0].startswith(">") else "text"
            found.append((first, kind, " ".join(paragraph)))
            paragraph.clear()

    for number, line in enumerate(read(document).split("\n"), 1):
        text = line.strip()
        item = re.match(r"([-*]|\d+\.) +", text)
        if text.startswith("```"):
            end()
            is_fenced = not is_fenced
        elif is_fenced or (line.startswith("    ") and not paragraph and not item):
            continue
        elif not text:
            end()
        elif text.startswith("#"):
            end()
            found.append((number, "heading", text.lstrip("# ")))
        elif text.startswith("|"):
            end()
            cells = re.split(r"(?<!\\)\|", text.strip("|"))
            if not all(re.fullmatch(r"\s*:?-+:?\s*", cell) for cell in cells):
                found.extend((number, "cell", cell.strip().replace("\\|", "|")) for cell in cells)
        else:
            if item:
                end()
                text = text[item.end() :]
            first = first if paragraph else number
            paragraph.append(text)
    end()
    return found


def rows_of(document):
    """The rows of a document's tables: (number, cells)."""
    rows = {}
    for number, kind, text in texts_of(document):
        if kind == "cell":
            rows.setdefault(number, []).append(text)
    return sorted(rows.items())


@functools.cache
def anchors_of(document):
    """The anchors of a document's headings, as GitHub makes them."""
    counts, anchors = {}, set()
    for _, kind, text in texts_of(document):
        if kind == "heading":
            text = re.sub(r"\[([^\]]*)\]\([^)]*\)", r"\1", text)
            anchor = re.sub(r"[^\w\- ]", "", text.lower()).replace(" ", "-")
            anchors.add(f"{anchor}-{counts[anchor]}" if anchor in counts else anchor)
            counts[anchor] = counts.get(anchor, 0) + 1
    return anchors


def check_links(document):
    for number, _, text in texts_of(document):
        # a link's text may be in backquotes, and what is in other backquotes is no link
        text = re.sub(r"(`+)(.+?)\1(?!\])", " code ", text)
        for target in re.findall(r"\[[^\]]*\]\(([^)\s]*)\)", text):
            if re.match(r"[a-z]+:", target):
                continue
            path, _, anchor = target.partition("#")
            file = os.path.normpath(os.path.join(os.path.dirname(document), path)) if path else document
            if not os.path.exists(file):
                fault(document, number, f"no file for the link {target}")
            elif anchor and anchor not in anchors_of(file):
                fault(document, number, f"no heading for the link {target}")


def check_tables(document):
    """Each row of a table has as many cells as its head."""
    wanted, last = 0, 0
    for number, cells in rows_of(document):
        # the line of dashes is between the head and the first row
        wanted = wanted if number - last <= 2 and last else len(cells)
        if len(cells) != wanted:
            fault(document, number, f"a row of {len(cells)} cells, not {wanted}")
        last = number


def check_sentences(document):
    for number, kind, text in texts_of(document):
        if kind in ("heading", "quotation"):
            continue
        plain = re.sub(r"(`+)(?:.+?)\1", " code ", text)
        plain = re.sub(r"\[([^\]]*)\]\([^)]*\)", r"\1", plain)
        for sentence in re.split(r"(?<=[.!?])[)\"*]* +(?=[\"(*]*[A-Z0-9`]|code\b)| · ", plain):
            words = [word for word in sentence.split() if re.search(r"\w", word)]
            if len(words) > MOST_WORDS:
                fault(document, number, f"a sentence of {len(words)} words: {' '.join(words[:8])} ..")


def code_of(path):
    """The text of a source without its comments; of another file all of it."""
    if path.endswith(".antt"):
        return re.sub(r"--.*", "", read(path))
    if path.endswith((".rt", ".rs")):
        return re.sub(r"(?<!:)//.*", "", read(path))
    return read(path)


def words_of_sources():
    """All words of the sources, of scripts and of examples, comments aside, words with hyphens among them."""
    words = set()
    sources = [path for part in ("src", "specs", "proofs", "data", "must-fail")
               for path in files("crates", "*", part, "**", "*")]
    others = [path for part in ("edits", "examples", "checks", "tests", "bench", "web", "python") for path in files(part, "**", "*")]
    others += files("rust", "*") + [path for part in ("src", "tests", "examples")
                                    for path in files("rust", "nuigatre", part, "**", "*.rs")]
    for path in [*sources, *others, *files("tools", "*"), *files("crates.txt"), *files("HANDLES"), *files("wctrim")]:
        is_text = not path.endswith((".wasm", ".so", ".pyc", ".md", "check-docs.py")) and "/data/" not in path.replace("/wc_tests/data/", "/")
        if os.path.isfile(path) and is_text:
            for text in (code_of(path), os.path.relpath(path, TOP)):
                words.update(re.findall(r"\w+", text))
                words.update(re.findall(r"[a-z]+(?:-[a-z]+)+", text))
    return words


@functools.cache
def names_in_crates():
    return {os.path.basename(path) for path in files("crates", "**", "*") + files("tests", "**", "*")}


@functools.cache
def folders_of_crates():
    return [TOP, *files("include"), *files("web"), *files("crates"), *files("crates", "*"), *files("crates", "*", "*")]


def is_file(document, name):
    """Whether a path is that of a file: from the top, from the document's folder, in a crate or in tests."""
    is_pattern = "*" in name or re.search(r"(^|/)[A-Z_]+(\.\w+)?(/|$)", name)
    if name.startswith("/") or not re.search(r"\w", name) or is_pattern or name in WRITTEN or any(made in name for made in MADE):
        return True
    folders = [os.path.dirname(document), *folders_of_crates()]
    for ending in ("", ".rt", ".antt"):
        if any(os.path.exists(os.path.join(folder, name.rstrip("/") + ending)) for folder in folders):
            return True
    return "/" not in name and name in names_in_crates()


PATH = r"[\w.-]+(/[\w.-]+)+/?|[\w-]+\.(rt|antt|rows|py|sh|md|wasm|wat|edits?|txt|c)"


def names_in(text):
    """The names of a text in backquotes: a path of names, each of which may be called."""
    call = re.fullmatch(r"(?:\w+(?:::<[^>]*>)?(?:::|\.))*\w+(?:::<[^>]*>)?(\(.*)?", text)
    if not call:
        return []
    head = text.split("(")[0]
    return [name for name in re.findall(r"\w+", re.sub(r"<[^>]*>", "", head)) if re.search(r"[A-Za-z]", name)]


def check_names(document, words):
    heading = ""
    for number, kind, text in texts_of(document):
        heading = text if kind == "heading" else heading
        # what a version removed is in no source
        if heading == "Removed":
            continue
        for name in re.findall(r"(?<!`)`([^`]+)`(?!`)", text):
            if re.fullmatch(PATH, name):
                if not is_file(document, name):
                    fault(document, number, f"no file {name}")
            elif re.fullmatch(r"[a-z]+(-[a-z]+)+", name):
                if name not in words and name not in FOREIGN:
                    fault(document, number, f"no {name} in the sources")
            else:
                for word in names_in(name):
                    # `R_drop`, `NAME_drop`, `tN`: the capitals are no part of a name; `8b9dc47`: a commit
                    is_pattern = re.match(r"[A-Z]+_|[a-z][A-Z]$|[0-9a-f]{7,12}$", word)
                    # `adapter0_item5`: words that programs number
                    is_numbered = re.fullmatch(r"[a-z]+\d+(_[a-z]+\d+)*", word) and set(re.findall("[a-z]+", word)) <= words
                    is_pattern = is_pattern or is_numbered
                    if word not in words and word not in FOREIGN and not is_pattern:
                        fault(document, number, f"no {word} in the sources")


# Commands: scripts of the repository, and its programs.

SCRIPT = r"(?:\./|\.\./)*((?:checks|bench|edits|rust|tools|examples/wasi|\.ci)/[\w.-]+|web/\w+\.py|wctrim|wcplan|wcwhy|wctests)"


def commands_of(document):
    """The commands of a document that call a script or a program: (number of the line, words)."""
    text = re.sub(r" *\\\n *", " ", read(document))
    for number, line in enumerate(text.split("\n"), 1):
        found = [line.strip()] if line.startswith("    ") or line.startswith("$ ") else []
        for command in [*found, *re.findall(r"`([^`]+)`", line)]:
            words = re.sub(r"^(\$ |# )", "", re.sub(r"^(\w+=\S+ )+", "", command)).split("#")[0].split()
            if words and re.fullmatch(SCRIPT, words[0]):
                yield number, words


@functools.cache
def options_of(script):
    """The text that has the options of a script or of a program."""
    if script in ("wctrim", "wcplan", "wcwhy"):
        return read(os.path.join(TOP, "docs", script.upper() + ".md")).split("## ")[0] + read(os.path.join(TOP, "wctrim")).split("\nsay()")[0]
    if script == "wctests":
        return read(os.path.join(TOP, "wctrim"))
    path = os.path.join(TOP, script)
    return read(path) if os.path.isfile(path) else ""


def check_commands(document):
    for number, words in commands_of(document):
        script = re.fullmatch(SCRIPT, words[0])[1]
        if re.search(r"/[A-Z]+(\.\w+)?$", script):
            continue
        if script not in ("wctrim", "wcplan", "wcwhy", "wctests") and not os.path.exists(os.path.join(TOP, script)):
            if not any(made in script for made in MADE):
                fault(document, number, f"no script {script}")
            continue
        for option in re.findall(r"(?<!\S)(--[a-z][\w-]*)", " ".join(words[1:])):
            if option != "--help" and not re.search(rf"{option}(?![\w-])|\"{option[2:]}\"", options_of(script)):
                fault(document, number, f"{script} has no option {option}")


# Crates: what is public in them, and the clauses of their functions.


class Crate:
    """A crate's source files, the heads of its functions by their names, its types, the functions in their blocks, its
    public functions, those of them that have a `requires`, and which of them, and of the variants of faults, have no doc."""

    def __init__(self, folder):
        self.name = os.path.basename(folder)
        self.source = os.path.join(folder, "src")
        self.files = files(self.source, "**", "*.rt")
        self.exported = exports_of_crate(self.name)
        self.heads, self.types, self.members = {}, set(), set()
        self.public, self.required, self.silent = set(), set(), set()
        for file in self.files:
            self.add_file(file)

    def text(self, module):
        path = os.path.join(self.source, module + ".rt")
        return read(path) if os.path.exists(path) else ""

    def public_module(self, file):
        """The path of a file's module, as `laws::x`, where it is public."""
        parts = os.path.relpath(file, self.source)[: -len(".rt")].split("/")
        for depth, part in enumerate(parts):
            if f"pub mod {part};" not in self.text("/".join(parts[:depth]) or "lib"):
                return None
        return "::".join(parts)

    def add_file(self, file):
        text, module = read(file), self.public_module(file)
        lines = text.split("\n")
        for name, body in re.findall(r"^pub enum (\w*Fault|Problem)\b[^{]*\{\n(.*?)^\}", text, re.M | re.S):
            for head, variant in re.findall(r"((?:^    (?:///|#\[).*\n)*)^    (\w+)[({, ]", body, re.M):
                self.silent.update([] if "/// " in head else [f"{name}::{variant}"])
        self.types.update(re.findall(r"^pub (?:struct|enum|trait|type|const) (\w+)", text, re.M))
        for it in functions_of(file, text):
            self.heads.setdefault(it.name, []).append(it.text)
            if it.owner:
                # what an `impl` of a trait promises is said at the trait
                is_public = it.owner in self.exported and (it.is_public or it.in_trait == "pub trait") and not it.trait
                path = f"{it.owner}::{it.name}"
                self.members.add(path)
            else:
                is_public = it.is_public and (module or it.name in self.exported)
                path = f"{module}::{it.name}" if module else it.name
            if is_public:
                self.public.add(path)
                if re.search(r"^\s*requires\b", it.text, re.M):
                    self.required.add(path)
                up = it.head - 1
                while lines[up].lstrip().startswith("#["):
                    up -= 1
                if not lines[up].lstrip().startswith("/// "):
                    self.silent.add(path)

    def has(self, parts):
        """Whether the crate has a function, a type, or a public module of this path."""
        if len(parts) > 1 and parts[-2] in self.types and parts[-1] not in self.types:
            return f"{parts[-2]}::{parts[-1]}" in self.members
        modules = {self.public_module(file) for file in self.files}
        return parts[-1] in self.heads or parts[-1] in self.types or "::".join(parts) in modules

    def has_clause(self, functions, clause):
        """Whether one of the functions has the clause; or it is a law, or what an `impl` says of a trait."""
        heads = [head for name in functions for head in self.heads.get(name, [])]
        return (clause in self.heads or any(re.search(rf"\b(ensures|requires) {clause}\b", head) for head in heads)
                or any(re.search(rf"\bghost {clause}\b", read(file)) for file in self.files))


class Crates:
    """Several crates, for a page about all of them: what one of them has."""

    def __init__(self, crates):
        self.crates = crates

    def has(self, parts):
        return any(crate.has(parts) for crate in self.crates)

    def has_clause(self, functions, clause):
        return any(crate.has_clause(functions, clause) for crate in self.crates)


# The pages of the crates.


def requirements_in(document):
    """The functions under "What functions require": (number, names), of a row's first cell, and of a list after a colon."""
    heading, last = "", 0
    for number, kind, text in texts_of(document):
        heading = text if kind == "heading" else heading
        if heading == "What functions require":
            if kind == "cell" and number != last:
                yield number, text
            elif kind == "text":
                yield from ((number, names) for names in re.findall(r": (`[\w:]+`(?:, `[\w:]+`)*)\.", text))
        last = number


def paths_in(cell):
    """The functions that a cell names, as lists of names. A name is beside the one before it: `A::f`, `g`, `B::h`."""
    paths = []
    for name in re.findall(r"`([\w:]+)`", cell):
        parts = name.split("::")
        paths.append(parts if len(parts) > 1 or not paths else [*paths[-1][:-1], *parts])
    return paths


def check_clauses(document, crate):
    """What is in parentheses after a promise: `f`, `A::g`: `clause`, `clause`; and other such functions after `;`."""
    heading = ""
    for number, kind, text in texts_of(document):
        heading = text if kind == "heading" else heading
        names = r"`[\w:]+`(?:, `[\w:]+`)*"
        for group in re.findall(rf"\(({names}: {names}(?:; {names}: {names})*)\)", text) if heading == "What is promised" else ():
            for functions, clauses in (part.split(": ") for part in group.split("; ")):
                paths = paths_in(functions)
                for path in paths:
                    if not crate.has(path):
                        fault(document, number, f"no {'::'.join(path)}")
                for clause in re.findall(r"`(\w+)`", clauses):
                    if not crate.has_clause([path[-1] for path in paths], clause):
                        fault(document, number, f"no clause {clause} of {functions}")


def check_public(document, crate):
    """Each public function says what it does; its page names it or its module, unless it is one of a type."""
    spans = [span for _, _, text in texts_of(document) for span in re.findall(r"`([^`]+)`", text)]
    named = {word for span in spans for word in re.findall(r"\w+", span)}
    for path in sorted(crate.silent):
        fault(document, 1, f"{path} has no doc in its source")
    for path in sorted(crate.public):
        if path not in crate.members and not named & set(path.split("::")):
            fault(document, 1, f"{path} is not on the page")
    requirements = {}
    for number, names in requirements_in(document):
        requirements.update(("::".join(path), number) for path in paths_in(names))
    for path in sorted(crate.required - set(requirements)):
        fault(document, 1, f"{path} has a `requires`, and is not in the table of requirements")
    for path in sorted(set(requirements) - crate.required):
        fault(document, requirements[path], f"{path} is in the table of requirements, and has no `requires`")


def check_heads(crate):
    """Each file of sources, definitions and lemmas says at its head what is in it."""
    for file in crate.files:
        if not read(file).startswith("//! "):
            fault(file, 1, "no line `//!` says what is in it")
    for file in files("crates", crate.name, "specs", "**", "*.antt") + files("crates", crate.name, "proofs", "*.antt"):
        text = read(file)
        is_list = os.path.basename(file) == "Lib.antt" or not re.search(r"^(?!pub mod )\S", text, re.M)
        if not is_list and not text.startswith("-- "):
            fault(file, 1, "no line `--` says what is in it")


def check_beginnings():
    """The docs of sources begin with the thing that they are about."""
    for file in files("crates", "*", "src", "**", "*.rt") + files("rust", "nuigatre", "src", "*.rs"):
        lines = read(file).split("\n")
        for number, (before, line) in enumerate(zip(["", *lines], lines), 1):
            if re.match(r"\s*//[/!] (What|The same)\b(?!.*\?)", line) and not re.match(r"\s*//[/!] \S", before):
                fault(file, number, f"a doc that doesn't name its thing: {line.strip()}")


def check_crate(crate, is_library):
    document = os.path.join(TOP, "crates", crate.name, "README.md")
    if not os.path.exists(document):
        fault(document, 1, "no page")
        return
    if is_library:
        check_clauses(document, crate)
        check_public(document, crate)
    check_heads(crate)


def check_list():
    """The list of crates in MAP: each crate is in a row, and the rows are in the order of crates.txt, by their first crates.
    (Each is in the picture as well: tools/pictures.py.)"""
    document = os.path.join(TOP, "docs", "MAP.md")
    rows, crates, last = list(rows_of(document)), list(used_by_crates()), -1
    for crate in crates:
        if not any(f"[{crate}](" in cells[0] for _, cells in rows):
            fault(document, 1, f"no row for {crate}")
    for number, cells in rows:
        first = re.match(r"\[(\w+)\]\(\.\./crates/", cells[0])
        if first and first[1] in crates:
            if crates.index(first[1]) < last:
                fault(document, number, f"{first[1]} is not in the order of crates.txt")
            last = max(last, crates.index(first[1]))


MONTHS = "January|February|March|April|May|June|July|August|September|October|November|December"


def check_dates():
    """docs/PERFORMANCE.md: each table comes after a date in its section."""
    document, dated = os.path.join(TOP, "docs", "PERFORMANCE.md"), False
    for number, line in enumerate(read(document).split("\n"), 1):
        dated = not line.startswith("#") and (dated or bool(re.search(rf"\d ({MONTHS})\b", line)))
        if line.startswith("|---") and not dated:
            fault(document, number, "a table without a date before it in its section")


def check_top():
    document = os.path.join(TOP, "README.md")
    for number, line in enumerate(read(document).split("\n"), 1):
        if len(line) > 120:
            fault(document, number, f"a line of {len(line)} columns")
    if not re.fullmatch(r"rattle-kit-\S+ logic \w+\n", read(os.path.join(TOP, "KIT"))):
        fault(os.path.join(TOP, "KIT"), 1, "is no line of `rt version`")


def main():
    argparse.ArgumentParser(description=__doc__, formatter_class=argparse.RawDescriptionHelpFormatter).parse_args()
    crates, public = [Crate(folder) for folder in files("crates", "*") if os.path.isdir(folder)], libraries()
    words = words_of_sources()
    for document in documents():
        check_links(document)
        check_tables(document)
        check_sentences(document)
        check_names(document, words)
        check_commands(document)
    check_top()
    check_list()
    check_dates()
    check_beginnings()
    for crate in crates:
        check_crate(crate, crate.name in public)
    check_clauses(os.path.join(TOP, "docs", "PATHS.md"), Crates([crate for crate in crates if crate.name in public]))
    for line in faults:
        print(line)
    print("all as wanted" if not faults else f"{len(faults)} not as wanted")
    return 1 if faults else 0


if __name__ == "__main__":
    sys.exit(main())
