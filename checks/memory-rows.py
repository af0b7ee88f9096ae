#!/usr/bin/env python3
"""Checks that rows of the tests reach each public function of the libraries that can run out of memory, and that each public
function is called at all.

    memory-rows.py [--from FUNCTION]

A function that returns AllocError or a fault could be proved if it always returned Memory; a row with enough memory that calls
it rules that out. The sources say which functions rows reach: from `main` of the program of rows and of the programs, and
from the calls of the library in tests/*.py, each function that the text of one names. A name means the function of its file's
crate, or of the crate that the file imports it from; after a type's name a function of that type or trait; after a point any
method of that name. UNREACHED names what no row reaches and nothing calls, and why. Each call of rows also has a row whose answer is no fault,
but for FAULTS.

Something also names each public function: the rows, a program, or a call from C. And `args` of the program of rows has each
file of rows, and its `stdout` how many rows are in each. What is missing is printed; the status is then 1. --from prints by
which functions rows reach one, as `wc_gc::run`.
"""
import argparse
import pathlib
import re
import sys

sys.path.append(str(pathlib.Path(__file__).resolve().parent.parent / "tools"))
from repository import ROW_FOLDERS, TOP, exports_of_crate, files_of, functions_of, libraries, read, row_files, used_by_crates
from row_format import rows_of

# The program of rows, the programs, and the library, which tests/rows.py asks.
ROWS, PROGRAMS, LIBRARY = "wc_tests", ("wctrim", "wcwhy", "wcplan"), "nuigatre"
# What no row reaches and nothing calls, and why.
UNREACHED = dict.fromkeys(
    ("wc_graph::either", "wc_graph::on_chains", "wc_graph::Chains::finders", "wc_graph::Chains::missing_of", "wc_graph::Chains::on_chains"),
    "no program uses it: the chains of `wc_gc` have code of their own",
)
# Calls of rows that have no answer but a fault, and why.
FAULTS = {
    "no_such_call": "no call has this name",
    "message_fault": "the fault is what it is for",
    "resolve_build_with": "the fault is what it is for",
    "plan_without_lowerings": "the plan's fault is what it is for",
    "plan_failing": "the sink fails",
}
# Functions of traits that are called without their names.
IMPLIED = ("fmt", "from", "drop", "clone", "eq", "hash", "cmp", "next", "default")
# Functions whose status says that memory ran out.
OTHERS = {
    "wctrim_command": "run",
    "wc_calls": "answer_for_world dedupe paths plan planned_world scan trim validate validated_module why world",
    "wc_component_calls": "component_imports component_paths",
}
WORD = re.compile(r"(?:((?:\w+::)+)|(\.\s*))?\b([a-z_]\w*)\b(?!\s*!)")


class Node:
    """A function, or what is beside the functions of a file: its crate, its file, its type and trait, its name, and its text."""

    def __init__(self, crate, path, owner, trait, name, text):
        self.crate, self.path, self.owner, self.trait, self.name, self.text = crate, path, owner, trait, name, text

    def __str__(self):
        return "::".join(word for word in (self.crate, self.owner, self.name) if word)


def imports_of(crate, text):
    """The crates and the names there of what a file has from others, by the names here; for modules and functions alike."""
    found = {}

    def read_tree(path, tree):
        depth, part, parts = 0, "", []
        for sign in tree + ",":
            depth += (sign == "{") - (sign == "}")
            if sign == "," and not depth:
                parts.append(part.strip())
                part = ""
            else:
                part += sign
        for part in filter(None, parts):
            head, braced, inner = part.partition("{")
            if braced:
                read_tree(path + [it for it in head.split("::") if it], inner.rpartition("}")[0])
                continue
            real, _, here = part.partition(" as ")
            words = path + real.split("::")
            found[here.strip() or words[-1].strip()] = (crate if words[0] in ("crate", "super", "self") else words[0], words[-1].strip())

    for tree in re.findall(r"^(?:pub(?:\([^)]*\))? )?use ([^;]*);", text, re.M):
        read_tree([], " ".join(tree.split()))
    return found


def nodes_of(crate):
    """The functions of a crate, and what is beside them."""
    for path in files_of(crate, "src", ".rt"):
        text = path.read_text(encoding="utf-8")
        rest, at = "", 0
        for it in functions_of(str(path), text):
            rest += text[at : it.begins]
            at = max(at, it.ends)
            if it.has_body or it.in_trait:
                yield Node(crate, path, it.owner, it.trait, it.name, plain(text[it.begins : it.ends]))
        rest = re.sub(r"^(?:pub(?:\([^)]*\))? )?(?:ghost )?(?:use|mod) [^;]*;", "", rest + text[at:], flags=re.M)
        yield Node(crate, path, "", "", "", plain(rest))


def plain(text):
    """A text without comments and quoted texts, and without clauses."""
    text = re.sub(r"\n\s*(?:requires|ensures)\b[^\n]*(?:\n(?! *\{\n| *(?:requires|ensures)\b)[^\n]*)*(?=\n *\{\n)", "", text)
    return re.sub(r'"(?:[^"\\]|\\.)*"', '""', re.sub(r"//.*|^ *ghost .*", "", text, flags=re.M))


class Graph:
    """The functions of crates, and which of them the text of one names."""

    def __init__(self, crates):
        self.nodes = [it for crate in crates for it in nodes_of(crate)]
        self.free, self.methods, self.imports, self.beside = {}, {}, {}, {}
        for it in self.nodes:
            (self.methods if it.owner else self.free).setdefault(it.name, []).append(it)
            if not it.name:
                self.beside[it.path] = it
                self.imports[it.path] = imports_of(it.crate, it.path.read_text(encoding="utf-8"))

    def named(self, node):
        """The functions that the text of one names."""
        imports = self.imports[node.path]
        yield self.beside[node.path]
        for path, dot, name in WORD.findall(node.text):
            if dot:
                yield from self.methods.get(name, [])
                continue
            words = path.split("::")[:-1]
            last = words[-1] if words else ""
            if last[:1].isupper():
                of = imports.get(last, ("", last))[1]
                its = [it for it in self.methods.get(name, []) if of in (it.owner, it.trait)]
                its = its or (self.methods.get(name, []) if last == "Self" or len(last) == 1 else [])
                yield from its
                continue
            crate, real = imports.get(words[0] if words else name, (node.crate, words[0] if words else name))
            crate = words[0] if words and words[0] in CRATES else crate
            module = (real if len(words) == 1 else last) if words else ""
            for it in self.free.get(real if not words else name, []):
                if it.crate == crate and (not module or module == crate or module in ("crate", "self", "super") or it.path.stem == module):
                    yield it

    def reached(self, roots):
        """What is reached, and of each by what."""
        found, todo = {it: None for it in roots}, list(roots)
        while todo:
            node = todo.pop()
            for it in self.named(node):
                if it not in found:
                    found[it] = node
                    todo.append(it)
        return found


CRATES = used_by_crates()
# the body of a function that does nothing
LAW = re.compile(r"\{?\s*(let _ = [\w.&]*;)?\s*\}?")


def functions():
    """The public functions of the libraries, without laws; and whether each returns AllocError or a fault, or is one of OTHERS."""
    for crate in libraries():
        exported = exports_of_crate(crate)
        for path in files_of(crate, "src", ".rt"):
            text = path.read_text(encoding="utf-8")
            for it in functions_of(str(path), text):
                answer = re.split(r"\n\s*(?:requires|ensures)\b", it.text)[0].rpartition("->")[2]
                can_fail = re.search("AllocError|Fault|Refused", answer) or it.name in OTHERS.get(crate, "").split()
                is_law = it.has_body and LAW.fullmatch(text[it.opens : it.ends].strip())
                if not is_law and (it.is_public or it.in_trait == "pub trait") and (it.owner or it.name) in exported:
                    yield "::".join(word for word in (crate, it.owner, it.name) if word), bool(can_fail)


def calls_without_answer():
    """The calls of rows of which each answer begins with a fault."""
    answers = {}
    for row in (row for path in row_files() for row in rows_of(path)):
        answers[row.call] = answers.get(row.call) or bool(row.answer) and not row.answer[0].startswith(("fault", "bad row"))
    return [call for call, is_answered in answers.items() if call and not is_answered]


def texts_of_scripts():
    """The texts in quotes in the scripts that ask rows: those of calls of the library among them."""
    return {text for path in (TOP / "tests").glob("*.py") for text in re.findall(r'"(\w+)"', path.read_text(encoding="utf-8"))}


def wrong_counts():
    """What is wrong with the list of the files of rows, and with their counts."""
    listed, lines = read("crates/wc_tests/args").split(), read("crates/wc_tests/stdout").splitlines()
    for path in row_files(ROW_FOLDERS[0]):
        count = len(rows_of(path))
        if path.name not in listed:
            yield "crates/wc_tests/args lacks " + path.name
        if f"{path.name}: {count} of {count} rows agree" not in lines:
            yield f"crates/wc_tests/stdout lacks the {count} rows of {path.name}"


def main():
    parser = argparse.ArgumentParser(description=__doc__, formatter_class=argparse.RawDescriptionHelpFormatter)
    parser.add_argument("--from", dest="of", metavar="FUNCTION")
    given = parser.parse_args()
    graph = Graph(list(CRATES))
    asked = texts_of_scripts()
    mains = [it for it in graph.nodes if it.crate in (ROWS, *PROGRAMS) and it.name == "main"]
    found = graph.reached(mains + [it for it in graph.nodes if it.crate == LIBRARY and it.name.removeprefix(LIBRARY + "_") in asked])
    # what is called without its name: texts of faults, for one
    implied = [it for it in graph.nodes if it.trait and it.name in IMPLIED]
    named = graph.reached([it for it in graph.nodes if it.name == "main" or it.crate == LIBRARY] + implied)
    if given.of:
        for it in [it for it in found if str(it) == given.of]:
            while it:
                print(it, "in", it.path.relative_to(it.path.parents[3]))
                it = found[it]
        return
    public = dict(functions())
    known, reached = {name for name, can_fail in public.items() if can_fail}, set(map(str, found))
    wrong = ["no row reaches " + name for name in sorted(known - reached - set(UNREACHED))]
    called = set(map(str, named))
    wrong += ["nothing calls " + name for name in sorted(set(public) - called - set(UNREACHED))]
    wrong += [f"UNREACHED has {name}, which " + ("is called" if name in public else "doesn't exist") for name in UNREACHED if name not in set(public) - called]
    wrong += ["no row answers without a fault to " + call for call in calls_without_answer() if call not in FAULTS]
    wrong += wrong_counts()
    for line in wrong:
        print(line)
    print("%d functions, %d of them can fail" % (len(public), len(known)))
    sys.exit(1 if wrong else 0)


if __name__ == "__main__":
    main()
