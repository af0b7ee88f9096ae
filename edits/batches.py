#!/usr/bin/env python3
"""Tries many edits of a crate in one check: those that turn different functions.

    edits/batches.py [--sources DIR] [--over DIR] [--work DIR] [--edit NAME].. [--most N] [--jobs N] [--again] [--plan]
                     [--record] CRATE..
    edits/batches.py --gate [CRATE..]

An edit changes the body of one function, and a caller sees only that function's contract. So edits of different functions
don't hide one another, and are tried together, in a copy of the crate. In the copy every function that none of them
turns has the body `unreachable!()` and no proof file: its contract stands as it is, and costs next to nothing to check.
The check goes past what it refuses (`--allow-holes`), and says of each function what of its proof is refused:

    clause   what the function ensures (a goal `returns..`), or the invariant of a type
    loop     an invariant or a measure of a loop
    lemma    a lemma that its proof cites, where the edit turns a statement
    step     what a call requires, an index, an overflow, a panic
    name     nothing but a name that a proof file cites and that the edit took away: this says little of the contract
    none     nothing: the edit is not refused
    unread   the front end refuses the edited text, so no contract was tried

One function that no edit of the batch turns is kept as it is, and has to come out with nothing refused, so that a copy in
which all is refused is not taken for an answer. An edit that the front end refuses is left out, and the batch tried
again. Edits of heads and of constants are tried apart from those of bodies, at the functions that name the constant; then
those of `specs/`, at the functions whose contracts lead to what is changed. What is not refused is tried once more, alone.

The crate's sources are those of this checkout, or of DIR/crates/CRATE by --sources. The statements of the crates below are
read from DIR/NAME.rlib by --over; without it, from crates/NAME/out/rlib of the sources, where `rt ci` leaves them. The crate
itself has to be proved: what is refused here is taken to be refused for the edit. --work keeps what was checked and
found (without it /tmp/edits-in-batches): what was found over the same sources isn't tried again, but with --again.
Printed is a line for each edit, with the first message, and the processor seconds. The status is 0 where each edit is
refused for more than a name. --plan prints the batches alone. With --record what refused each is put into edits/refused.txt,
under a key of the edit, of the function that it turns, and of the definitions that this function's clauses lead to in its
crate, and with a sum of all definitions that they lead to; of an edit of which one of these changes it is not known any more.
(Older lines have no sum: what changes in the crates below does not count for them.)
`checks/edits.py --write` makes the table of it in docs/TRIED.md.

With --gate each edit is tried by itself, over the whole crate, by `rt ci CRATE` on a copy in which they are in must-fail/:
those of all crates, or of those that are named. That decides, and takes ten times as long. It may be stopped at any time:
what was tried over the same files on this machine isn't tried again. A line is printed for each edit.
"""

import argparse
import functools
import hashlib
import json
import os
import pathlib
import re
import resource
import shutil
import subprocess
import sys
import tempfile

sys.path.append(os.path.join(os.path.dirname(os.path.dirname(os.path.abspath(__file__))), "tools"))
from repository import TOP, applied, changes_of, edits_of, functions_of, kit_command, parts_of, rlib_of, texts_of, used_by_crates

KINDS = ("clause", "loop", "lemma", "step", "name", "none", "unread", "untried")
RECORD = TOP / "edits" / "refused.txt"


def bodies_of(file, text):
    """The functions of a file that have a body."""
    return [it for it in functions_of(file, text) if it.has_body]


def imports_of(text):
    """The names under which a file has things of other files, where these are others: the name there for each."""
    lists = re.findall(r"(?:ghost )?\buse [^;{\n]*\{([^}]*)\}", text)
    return {here: there for names in lists for there, here in re.findall(r"([^\s,{}]+) as ([^\s,{}]+)", names)}


class Sources:
    """The texts of a crate's files; what an edit is known by are parts of them."""

    def __init__(self, texts):
        self.texts, self.bodies, self.renamed = texts, {}, {}

    def functions(self, file):
        """The functions of a file that have a body."""
        if file not in self.bodies:
            self.bodies[file] = bodies_of(file, self.texts[file])
        return self.bodies[file]

    def words(self, file, text):
        """The words in a part of a file, each as it is called where it is defined."""
        if file not in self.renamed:
            self.renamed[file] = imports_of(self.texts[file])
        return {self.renamed[file].get(it, it) for it in words_of(text)}

    @functools.cached_property
    def definitions(self):
        """The parts of `specs/` that define, by their names: each a text, and the words in it."""
        found = {}
        for path in [it for it in self.texts if it.startswith("specs/")]:
            for _, lines in parts_of(self.texts[path]):
                text = "\n".join(lines)
                if DEFINED.match(text) and not re.match(r"(pub )?(use|mod) ", text):
                    found.setdefault(DEFINED.match(text)[1], []).append((text, self.words(path, text)))
        return found

    @functools.cached_property
    def heads_of_traits(self):
        """The heads of the functions that traits declare, by trait and function."""
        found = {}
        for path in [it for it in self.texts if it.startswith("src/")]:
            for it in functions_of(path, self.texts[path]):
                if it.in_trait:
                    found[it.owner, it.name] = path, it.text
        return found

    def clauses(self, function):
        """The files and the texts that say what a function ensures: its head, and that of the trait it is of."""
        own = self.texts[function.file][function.begins : function.opens]
        return [(function.file, own), *[self.heads_of_traits[it] for it in [(function.trait, function.name)] if it in self.heads_of_traits]]

    def reached(self, parts):
        """The texts of the definitions that parts of files lead to, in the crate."""
        todo, seen, texts = [it for file, text in parts for it in self.words(file, text)], set(), []
        while todo:
            word = todo.pop()
            if word not in seen:
                seen.add(word)
                for text, words in self.definitions.get(word, []):
                    texts.append(text)
                    todo += words
        return sorted(texts)

    def item(self, file, place):
        """What is at a place between two lines that begin in the first column."""
        text = self.texts[file]
        return re.split(r"\n(?=\S)", text[: place + 1])[-1] + re.split(r"\n(?=\S)", text[place + 1 :])[0]


class Edit:
    """An edit, and what it turns: bodies of functions, heads of functions, or items that are no function. Its key is one of
    the edit, of what it turns, and of the definitions that the clauses of this lead to in the crate: what refused it is known
    as long as these are the same."""

    def __init__(self, name, text, sources):
        self.name, self.text, self.sources = name, text, sources
        self.fault = applied(text, sources.texts)[1]
        self.functions, self.heads, self.items = [], [], []
        for file, old, new in [] if self.fault else changes_of(text):
            place = sources.texts[file].find(old)
            if not file.startswith("src/") or place < 0:
                self.items.append((file, place))
                continue
            place += len(os.path.commonprefix([old, new]))
            it = next((it for it in sources.functions(file) if it.begins <= place <= it.ends), None)
            if it:
                group = self.functions if place >= it.opens else self.heads
                if it.key not in [x.key for x in group]:
                    group.append(it)
            elif not re.search(r"(^| )fn \w+[(<]", new) or re.match(r"(pub )?impl", old):
                self.items.append((file, place))

    @functools.cached_property
    def key(self):
        of, functions = self.sources, self.functions + self.heads
        items = [(file, of.item(file, place)) for file, place in self.items if file in of.texts]
        turned = [of.texts[it.file][it.begins : it.ends] for it in functions] + [text for _, text in items]
        clauses = [part for it in functions for part in of.clauses(it)]
        said = [text for _, text in clauses] + of.reached(clauses + items)
        return hashlib.sha256("\0".join([self.text, *turned, *said]).encode()).hexdigest()[:12]


def recorded():
    """The lines of the record: a key, what refused the edit, its name, and of a newer line the sum of definitions."""
    return [line.split() for line in RECORD.read_text().splitlines()] if RECORD.exists() else []


def sums_of_edits():
    """By their names, the sum of all definitions to which each edit leads, those of the crates below too."""
    sys.path.append(str(TOP / "checks"))
    from clauses import House
    house = House()
    return {f"{crate}/{edit.name}": house.sum_of_edit(crate, edit) for crate, edit, _ in house.edits if not edit.fault}


def known():
    """What refused each edit that is recorded, by its key; of a line with a sum only where the sum is still the same."""
    lines = recorded()
    sums = sums_of_edits() if any(len(it) > 3 for it in lines) else {}
    return {key: kind for key, kind, name, *then in lines if not then or then == [sums.get(name)]}


def record(found):
    """Records what refused edits, by their keys, beside what is known; edits that there are not any more go."""
    sums, old, lines = sums_of_edits(), {it[0]: it for it in recorded()}, []
    for name in used_by_crates():
        sources = Sources(texts_of(name))
        for it, text, _ in edits_of(name):
            key, full = Edit(it, text, sources).key, f"{name}/{it}"
            line = [key, found[key], full, sums[full]] if key in found else old.get(key)
            lines += [" ".join(line) + "\n"] if line else []
    RECORD.write_text("".join(lines), encoding="utf-8")


class Crate:
    def __init__(self, sources, over, name):
        self.top, self.over, self.name = sources, over, name
        self.folder = f"{sources}/crates/{name}"
        self.texts = texts_of(name, sources)
        self.parts = Sources(self.texts)
        self.src = {path: it for path, it in self.texts.items() if path.startswith("src/")}
        self.functions = [it for path in sorted(self.src) for it in bodies_of(path, self.src[path])]
        every = sorted((path, hashlib.sha256(it.encode()).hexdigest()) for path, it in self.texts.items())
        self.sum = hashlib.sha256(repr(every).encode()).hexdigest()[:16]

    def command(self, flags):
        folder_of = lambda it: self.over or rlib_of(it, self.top)
        return kit_command("check", self.name, flags, self.top, folder_of)

    def only(self, function, tries):
        """What `--only` finds a function by: the end of its name where that is the only one, then longer names."""
        same = [it for it in self.functions if it.name == function.name]
        is_module = any(re.search(rf"(^|/){function.name}\.rt$", it) for it in self.src)
        owner = function.owner + function.trait
        short = f"{owner}::{function.name}" if owner else function.name
        long = f"{function.module}::{short}" if function.module else short
        is_free = len(same) == 1 and not is_module and function.name not in DERIVED
        last = f"{function.module}::{function.owner}" if owner and function.module else function.owner or function.module
        names = [*([function.name] if is_free else [short] if owner else []), long, short, last, function.module]
        # two impls of one trait for one type, as two `From`, have longer names: the module has both
        names = [function.module] if sum(it.key == function.key for it in self.functions) > 1 and function.module else names
        names = [it for n, it in enumerate(names) if it and it not in names[:n]]
        return names[min(tries, len(names) - 1)]


def stubbed(text, keep):
    """A file in which every function but those to keep has the body `unreachable!()`."""
    lines = text.split("\n")
    for it in reversed(bodies_of(keep[0], text)):
        if not it.whole and it.key not in keep[1]:
            if it.first == it.last:
                lines[it.first] = lines[it.first].removesuffix("{}") + "{ unreachable!() }"
            else:
                lines[it.first + 1 : it.last] = ["unreachable!()"]
    return "\n".join(lines)


def copied(crate, edits, keep, room):
    """Writes a copy of the crate in which only the functions to keep have their bodies and proof files (all, where `keep` is
    None), with the edits applied. Gives the edits that could be, one after another."""
    texts, used = dict(crate.texts), []
    if keep is not None:
        for path in crate.src:
            texts[path] = stubbed(texts[path], (path, keep))
        for it in crate.functions:
            if not it.whole and it.key not in keep:
                folder = rf"(.*/)?{it.owner}{it.trait}\w*" if it.trait else rf"(.*/)?{it.owner}" if it.owner else it.module.replace("::", "/")
                mine = re.compile(rf"proofs/{folder}{'/' if folder else ''}{it.name}/(Invariants|Answers|Proof)\.antt")
                for path in [it for it in texts if it.startswith("proofs/") and mine.fullmatch(it)]:
                    del texts[path]
    for edit in edits:
        made, fault = applied(edit.text, texts)
        if not fault:
            texts.update(made)
            used.append(edit)
    for at, _, names in os.walk(room):
        for it in names:
            if os.path.relpath(f"{at}/{it}", room) not in texts:
                os.remove(f"{at}/{it}")
    for path, text in texts.items():
        os.makedirs(os.path.dirname(f"{room}/{path}"), exist_ok=True)
        with open(f"{room}/{path}", "w", encoding="utf-8") as file:
            file.write(text)
    return used


def spent():
    it = resource.getrusage(resource.RUSAGE_CHILDREN)
    return it.ru_utime + it.ru_stime


def kind_of(goal):
    """What a goal of a function's proof is: of a clause, of a loop, or of a step."""
    last = goal.split(".")[-1]
    if re.match(r"returns|invariant_of|ensures", last):
        return "clause"
    if re.search(r"-(init|preserved|smaller|bounded|stays)(-|$)", last) or re.match(r"(loop|steps)\b", last):
        return "clause" if re.search(r"-returns", last) else "loop"
    return "step"


DERIVED = ("clone", "eq", "fmt", "hash", "cmp", "partial_cmp", "default", "drop", "from", "next")
HEAD_ANYWHERE = re.compile(r"(?m)^ *(?:pub(?:\([^)]*\))? )?(?:const |unsafe |extern \"C\" )*fn (\w+)")
DEFINED = re.compile(r"(?:pub |abbrev |data |record |unfoldable |lemma |ruleset )*(?!pub |module )(\S+)")
NAMES = re.compile(r"has no field|is not in scope|has no `|was not admitted|no such|is no name|has no step|names no")


def words_of(text):
    return set(re.findall(r"[^\s(){}\[\].,;:&<>]+", text)) - {"pub", "record", "data", "abbrev", "where", "=", "→"}


def lines_on(crate, function, lines):
    """The names and verdicts that a check prints on a function and its closures."""
    found = []
    for line in lines:
        at = re.match(r"fn (\S+): (.*)", line)
        path = at[1].split("::") if at else [""]
        for n, it in enumerate(path[1:], 1) if path[0] == crate.name else []:
            its_type = function.owner and function.owner.lower() in path[n - 1].lower() and function.trait in path[n - 1]
            if it == function.name and (its_type or not function.owner and "::".join(path[1:n]) == function.module):
                found.append((at[1], at[2]))
    return found


def judged(crate, function, lines, with_lemmas=False):
    """What a check says of a function: the kind, and the first that is refused of it."""
    mine, refused, notes = lines_on(crate, function, lines), [], []
    if not mine:
        return "untried", "the check has no line on it"
    for name, verdict in mine:
        if verdict.startswith(("no holes", "depends on a hole")):
            continue
        module = f"Rattle.{crate.name}.proofs." + ".".join(name.split("::")[1:]) + "."
        folder = "proofs/" + "/".join(name.split("::")[1:]) + "/"
        stands = re.findall(r"`([^`]*)`", verdict.split("; it calls")[0]) if "stands on" in verdict else []
        goals = [it[len(module) :] for it in stands if it.startswith(module)]
        goals += re.findall(r"`([^`.:]+)`", verdict.split("did not prove")[1]) if "did not prove" in verdict else []
        if "could not tell" in verdict:
            notes.append(verdict[:200])
        elif not goals and not stands and ("it calls" not in verdict or any(folder in it and ": error" in it for it in lines)):
            goals = [""]
        for goal in goals:
            short = goal.split(".")[-1]
            said = [it for it in lines if folder in it and f"`{short}`" in it] if short else [it for it in lines if folder in it]
            errors = [it for it in said if ": error" in it]
            message = next(iter(errors), "") or next((it for it in said if "must prove" in it), "") or verdict
            refused.append((kind_of(short), bool(errors) and all(NAMES.search(it) for it in errors), short, message))
        if with_lemmas:
            lemmas = [it for it in stands if not it.startswith(module) and re.search(r"(Lemmas|Laws)\.", it)]
            refused += [("lemma", False, it, "refused") for it in lemmas]
    if not refused:
        return ("untried", notes[0]) if notes else ("none", "; ".join(it for _, it in mine)[:200])
    for wanted in ("clause", "loop", "lemma", "step"):
        for kind, is_name, goal, message in refused:
            if kind == wanted and not is_name:
                message = re.sub(r"^(note: )?(\./)?\S*?:\d+:\d+: (error: )?(`[^`]*`: )?", "", message)
                return kind, f"{goal}: {message}"[:300]
    return "name", f"{refused[0][2]}: {refused[0][3]}"[:300]


class Tries:
    """The edits of a crate, tried; what was found is kept."""

    def __init__(self, crate, given):
        self.crate, self.given = crate, given
        self.room = f"{given.work}/{crate.name}"
        os.makedirs(f"{self.room}/copy", exist_ok=True)
        self.kept, self.found, self.longer = f"{self.room}/found.json", {}, {}
        self.runs = sum(it.startswith("log-") for it in os.listdir(self.room))
        if os.path.exists(self.kept):
            with open(self.kept, encoding="utf-8") as file:
                self.found = json.load(file)

    def key(self, edit):
        return hashlib.sha256((self.crate.sum + edit.text).encode()).hexdigest()[:16]

    def is_of(self, edit):
        """Whether what was found of an edit was found over these sources."""
        return self.found[edit.name]["key"] == self.key(edit)

    def tell(self, edit, kind, said, how):
        where = ", ".join(it.path() for it in edit.asked[:4])
        self.found[edit.name] = {"key": self.key(edit), "kind": kind, "said": said, "how": how, "at": where}
        with open(self.kept, "w", encoding="utf-8") as file:
            json.dump(self.found, file, indent=1, sort_keys=True)
        print(f"{self.crate.name}/{edit.name}: {kind} ({how}; {where}): {said}", flush=True)

    def check(self, edits, keep, asked):
        """The edits that a copy has, and the lines of its check."""
        used = copied(self.crate, edits, keep, f"{self.room}/copy")
        for _ in range(60):
            names = {it.key: self.crate.only(it, self.longer.get(it.key, 0)) for it in asked}
            flags = [x for it in sorted(set(names.values())) for x in ("--only", it)]
            flags += ["--allow-holes", "--jobs", str(self.given.jobs), "--incremental", f"{self.room}/incremental"]
            before, how = spent(), {"stdin": subprocess.DEVNULL, "stdout": subprocess.PIPE, "stderr": subprocess.STDOUT}
            ran = subprocess.run(self.crate.command(flags), cwd=f"{self.room}/copy", text=True, errors="replace", **how)
            self.seconds, self.runs = spent() - before, self.runs + 1
            with open(f"{self.room}/log-{self.runs}", "w", encoding="utf-8") as file:
                file.write(f"{len(used)} edits, {self.seconds:.0f} s: {' '.join(it.name for it in used)}\n{ran.stdout}")
            # a name that fits no function, or several: a longer one
            wrong = [it for it in asked if ran.returncode == 2 and f"`{names[it.key]}`" in ran.stdout]
            wrong = [it for it in wrong if self.longer.get(it.key, 0) < 5]
            if not wrong:
                break
            for it in wrong:
                self.longer[it.key] = self.longer.get(it.key, 0) + 1
        return used, ran.stdout.rstrip().split("\n")

    def witness(self, keep):
        """A short function that none of the edits turns, to be proved as it is."""
        text = lambda it, to: "\n".join(self.crate.src[it.file].split("\n")[it.head : to])
        short = [it for it in self.crate.functions if it.last - it.first == 2 and it.key not in keep and not it.whole]
        short = [it for it in short if "ensures" in text(it, it.first) and "(" not in text(it, it.last).split("{\n")[-1]]
        return min(short, key=lambda it: (it.owner != "", it.key), default=None)

    def batch(self, edits):
        """Tries edits that lead to different functions at once."""
        keep = {it.key for edit in edits for it in edit.asked}
        witness = self.witness(keep)
        asked = [it for edit in edits for it in edit.asked] + ([witness] if witness else [])
        used, lines = self.check(edits, keep | ({witness.key} if witness else set()), asked)
        how = f"{len(used)} at once, {self.seconds / max(1, len(used)):.1f} s each" if len(used) > 1 else f"alone, {self.seconds:.0f} s"
        for edit in edits:
            if edit not in used:
                self.tell(edit, "untried", "it cannot be applied to the copy", how)
        if not any(re.match(r"only=\d+", it) for it in lines):
            bad = self.unread(lines, used)
            if len(used) == 1:
                bad = bad or [(used[0], next((it for it in lines if "error" in it), lines[-1])[:300])]
            for edit, said in bad:
                self.tell(edit, "unread", said, how)
            left = [it for it in used if it not in [edit for edit, _ in bad]]
            for part in [left] if bad else [used[: len(used) // 2], used[len(used) // 2 :]]:
                if part:
                    self.batch(part)
            return
        if witness and judged(self.crate, witness, lines)[0] != "none":
            how += f", {witness.path()} wrongly refused"
        for edit in used:
            is_spec = any(not file.startswith("src/") for file, _ in edit.items)
            told = [judged(self.crate, it, lines, is_spec or bool(edit.heads)) for it in edit.asked]
            self.tell(edit, *min(told, key=lambda it: KINDS.index(it[0])), how)

    def unread(self, lines, edits):
        """The edits in whose functions the errors are of a check that the front end stopped."""
        bad = []
        for line in lines:
            at = re.match(r"(?:\./)?(src/\S+?):(\d+):\d+: error: (.*)", line)
            if not at:
                continue
            with open(f"{self.room}/copy/{at[1]}", encoding="utf-8") as file:
                before = "\n".join(file.read().split("\n")[: int(at[2])])
            heads = HEAD_ANYWHERE.findall(before)
            for edit in edits:
                is_here = heads and any(it.file == at[1] and it.name == heads[-1] for it in edit.asked)
                if is_here and edit not in [it for it, _ in bad]:
                    bad.append((edit, at[3][:300]))
        return bad

    def leads(self, edit):
        """The functions that an edit of no function may have refused: those that name what it changes."""
        words, inside = set(), ""
        for file, place in edit.items:
            text = self.crate.texts[file]
            if file.startswith("src/"):
                before = text[: place + len(text[place:].split("\n")[0])]
                named = re.findall(r"(?m)^ *(?:pub(?:\([^)]*\))? )?(const|static|type|struct|enum|trait|ghost|use|impl)\b([^\n]*)", before)
                kind, rest = named[-1] if named else ("", "")
                found = re.findall(r"\w+", rest.split("=")[0])
                if kind in ("const", "static", "type", "struct", "enum", "trait") and found:
                    words.add(found[0])
                elif kind == "use" and found:
                    words.add(found[-1])
                    inside = file
            else:
                part = re.split(r"\n(?=\S)", text[: place + 1])[-1] + text[place + 1 :].split("\n")[0]
                name = DEFINED.match(part)
                words |= {name[1]} if name else set()
        seen = set()
        while words - seen and not inside:
            seen |= words
            words |= {name for name, parts in self.crate.parts.definitions.items() if any(its & seen for _, its in parts)}
        its = lambda it: words_of(self.crate.src[it.file][it.begins : it.ends])
        return [it for it in self.crate.functions if inside in ("", it.file) and its(it) & words]

    def run(self, edits):
        known = [it["key"] for it in self.found.values() if it["kind"] != "untried"]
        todo = [it for it in edits if self.given.again or self.key(it) not in known]
        for edit in todo:
            edit.asked = [*edit.functions, *[it for it in edit.heads if it.key not in [x.key for x in edit.functions]]]
            if edit.items and not edit.fault:
                edit.asked += [it for it in self.leads(edit) if it.key not in [x.key for x in edit.asked]]
            if not self.given.plan and (edit.fault or not edit.asked):
                self.tell(edit, "untried", edit.fault or "no function is known to lead to it", "not tried")
        todo = [it for it in todo if not it.fault and it.asked]
        plain = [it for it in todo if not it.heads and not it.items]
        source = [it for it in todo if it not in plain and all(file.startswith("src/") for file, _ in it.items)]
        specs = [it for it in todo if it not in plain and it not in source]
        plans = [group for its in (plain, source, specs) for group in batches(its, self.given.most, self.crate.texts)]
        for edits in plans:
            print(f"{self.crate.name}: {len(edits)} of {len(todo)} edits, {sum(len(it.asked) for it in edits)} functions", flush=True)
        for edits in plans if not self.given.plan else []:
            self.batch(edits)
            for edit in edits if len(edits) > 1 else []:
                if self.found[edit.name]["kind"] in ("lemma", "none", "untried"):
                    self.batch([edit])


def batches(edits, most, texts):
    """The edits in few groups, in each of which they lead to different functions, and can be applied one after another."""
    made = []
    for edit in edits:
        keys = {it.key for it in edit.asked}
        for group in made:
            now, fault = applied(edit.text, group["texts"])
            if len(group["edits"]) < most and not keys & group["keys"] and not fault:
                break
        else:
            group = {"edits": [], "keys": set(), "texts": dict(texts)}
            made.append(group)
            now, fault = applied(edit.text, texts)
        group["edits"].append(edit)
        group["keys"] |= keys
        group["texts"].update(now)
    return [it["edits"] for it in made]


def by_gate(chosen):
    """Tries the edits as the gate tries those of must-fail, one crate after another; whether each was refused."""
    is_well = True
    with tempfile.TemporaryDirectory(prefix="edits.") as copy:
        os.makedirs(f"{copy}/.git")
        for name in ("crates.txt", "HANDLES"):
            shutil.copy(TOP / name, copy)
        left = shutil.ignore_patterns("out", "must-fail")
        for crate in used_by_crates():
            shutil.copytree(TOP / "crates" / crate, f"{copy}/crates/{crate}", ignore=left)
        for crate in chosen:
            folder = f"{copy}/crates/{crate}/must-fail"
            os.mkdir(folder)
            for name, text, is_gate in edits_of(crate):
                if not is_gate:
                    pathlib.Path(folder, f"{name}.edit").write_text(text, encoding="utf-8")
            # over the statements of the crates below, which are proved first where no earlier run did
            how = {"stdin": subprocess.DEVNULL, "stdout": subprocess.PIPE, "stderr": subprocess.STDOUT}
            ran = subprocess.run(["rt", "ci", crate], cwd=copy, text=True, errors="replace", check=False, **how)
            tried = [line for line in ran.stdout.splitlines() if line.startswith("rt: must-fail ")]
            print("\n".join(tried) or f"{ran.stdout}\nno edit of {crate} was tried", flush=True)
            is_well &= ran.returncode == 0 and bool(tried) and not any(re.search(": (NOT|BAD) ", line) for line in tried)
            shutil.rmtree(folder)
    return is_well


def chosen_crates(given):
    """The crates whose edits are tried by the gate: those that are named, or all."""
    having = [crate for crate in used_by_crates() if any(True for _ in edits_of(crate))]
    unknown = [crate for crate in given.crates if crate not in having]
    if unknown:
        sys.exit(f"batches.py: crate {unknown[0]} has no edits")
    return given.crates or having


def main():
    parser = argparse.ArgumentParser(usage=__doc__.split("\n\n")[1].strip(), description=__doc__,
                                     formatter_class=argparse.RawDescriptionHelpFormatter)
    parser.add_argument("--sources", default=TOP)
    parser.add_argument("--over")
    parser.add_argument("--work", default="/tmp/edits-in-batches")
    parser.add_argument("--edit", action="append", default=[])
    parser.add_argument("--most", type=int, default=40)
    parser.add_argument("--jobs", type=int, default=1)
    parser.add_argument("--again", action="store_true")
    parser.add_argument("--plan", action="store_true")
    parser.add_argument("--record", action="store_true")
    parser.add_argument("--gate", action="store_true")
    parser.add_argument("crates", nargs="*")
    given = parser.parse_args()
    if given.gate:
        sys.exit(0 if by_gate(chosen_crates(given)) else 1)
    if not given.crates:
        parser.error("no crate is named")
    is_well = True
    for name in given.crates:
        crate = Crate(os.path.abspath(given.sources), given.over and os.path.abspath(given.over), name)
        edits = [Edit(it, text, crate.parts) for it, text, _ in edits_of(name)]
        edits = [it for it in edits if not given.edit or it.name in given.edit]
        start, tries = spent(), Tries(crate, given)
        tries.run(edits)
        if given.plan:
            continue
        kinds = {it: tries.found.get(it.name, {"kind": "untried"})["kind"] for it in edits}
        is_well &= all(it in KINDS[:4] for it in kinds.values())
        counts = ", ".join(f"{list(kinds.values()).count(it)} {it}" for it in KINDS if it in kinds.values())
        print(f"{name}: {len(edits)} edits: {counts}; {spent() - start:.0f} processor seconds", flush=True)
        if given.record:
            record({it.key: kind for it, kind in kinds.items() if kind != "untried" and tries.is_of(it)})
    sys.exit(0 if is_well else 1)


if __name__ == "__main__":
    main()
