#!/usr/bin/env python3
"""Finds what is written twice: lines of the product's sources and specs, definitions of specs, and statements of lemmas.

    checks/duplicates.py [--all] [CRATE ..]
    checks/duplicates.py --shrink

Lines: texts of ten lines or more that are in crates/*/src and crates/*/specs twice, without comments, blank lines, `use` lines,
lines of brackets alone, and indentation; at least five of the ten differ. Definitions: each `abbrev`, `record` and `data` of
specs/ with the body of another one, up to its own name, names of variables, and imported names; a body has six words, or ten if
both are in one crate or of other types. Statements: each lemma of proofs/*Lemmas.antt that states what another one does, up to
names.

The crates are by default those of crates.txt, for lines those of the product. BOILERPLATE and ALIKE name what may be written
twice, with reasons; --all prints that too. checks/duplicates.txt has how many of the other statements and definitions there may
be: it only shrinks, by --shrink. State a lemma once, in the lowest crate that all who cite it see.

The status is 1 if anything else is found, or if an entry of these lists fits nothing.
"""
import argparse
import collections
import hashlib
import itertools
import pathlib
import re
import sys

sys.path.append(str(pathlib.Path(__file__).resolve().parent.parent / "tools"))
from repository import TOP, files_of, imports_of, parts_of, product_crates, used_by_crates

LEAST_LINES, LEAST_DIFFERENT = 10, 5
# the words of a body that has the types of another one in another crate, and of one that has not
LEAST_WORDS, LEAST_ALIKE = 6, 10
# the words of a lemma's statement
LEAST_STATEMENT = 6
STORE = TOP / "checks" / "duplicates.txt"
STORED_HEAD = """# Lemmas and definitions that stand more than once: a sum of what is stated or defined, how many there are, and their names.
# checks/duplicates.py refuses more; --shrink takes out those that went.
"""

# Texts that may stand twice: their places, as a regular expression on how they are printed, and why.
BOILERPLATE = [
    (r"wc_graph/src/dominators\.rt:\S+ \(dominators_on_way\), wc_graph/src/fronts\.rt:\S+ \(find_dominators\)$",
     "clauses: the function that finds the dominators of a graph requires what the one does that it calls"),
    (r"wc_(?:component_)?calls/src/\w+\.rt:\S+ \((\w+)\), nuigatre/src/lib\.rt:\S+ \(nuigatre_\1\)$",
     "clauses: an exported function has those of the call that it makes"),
    (r"wc_calls/src/validation\.rt:\S+ \((\w+)\), wc_calls/src/validation\.rt:\S+ \((\w+)\)$",
     "clauses: a function that finds the module has those of the one that validates it"),
    (r"wc_calls/src/validated_modules\.rt:\S+ \(answer_adapter\), wc_calls/src/validated_modules\.rt:\S+ \(answer_under\)$",
     "clauses: a function that finds the adapter has those of the one that answers for it"),
    (r"wc_names/src/legacy\.rt:\S+ \(match_wit_export\), wc_names/src/standard\.rt:\S+ \(match_wit_export\)$",
     "heads that a trait fixes: in each scheme the two look-ups of one name make its index, and ask it"),
    (r"wcplan_inputs/src/nearest\.rt:\S+ \(interface_for\), wcplan_inputs/src/nearest\.rt:\S+ \(interface_named\), "
     r"wcplan_inputs/src/nearest\.rt:\S+ \(interface_alike\)$",
     "heads: the function that looks for one text and then for one alike has those of the two that it calls"),
    (r"wcplan_inputs/src/fault\.rt:\S+ \(fixed_text\), wcplan/src/json_faults\.rt:\S+ \(fixed_json\)$",
     "a match that names each fault without a fixed text: as lines in the one, as JSON in the other"),
    (r"wc_why_text/src/tree_graph\.rt:\S+ \((\w+)\), wc_why_text/src/way_lines\.rt:\S+ \(\1\)$",
     "the names of items and their callers: in the labels of a picture in the one, in lines in the other"),
]
# Definitions that may be alike: their names, with the crates, and why.
ALIKE = [
    ("wc_why_text::Puts wc_record::Puts", "what a writer has: each in its crate's words"),
    ("wc_adapters::argument_view wc_validate::instance_entry",
     "a name and a view: the views are different definitions of different types"),
    ("wc_resolve::IsMemoryRefusal wc_validate::IsMemoryRefusal wc_gc::IsMemoryRefusal wc_world::IsMemoryRefusal wc_plan::IsMemoryRefusal wctrim_command::IsMemoryRefusal",
     "refusals of six types: of worlds, of a module, of a trim, of a component's world, of a plan, of a command"),
    ("wc_validate::IsRefusedAt wc_world::IsRefusedAt", "a refusal of a module, and one of a world"),
    ("wc_json::innermost wc_json::first_path wc_options::first", "the first of a list: of what is open, of paths, of values"),
    ("wc_dedupe::Texts wc_module_ways::Key wc_ways::Key", "two texts: names of an import, each for what sorts or finds by them"),
    ("wcwhy::IsSummary wcplan::IsPrintedImports", "what is printed of interfaces: of modules alone in the one, of a world in the other"),
    ("wc_summary::is_name wc_module_ways::is_name wc_ways::is_name", "whether a text is a name: of an export in the first, of an adapter in the others"),
    ("wc_module_ways::is_key wc_ways::is_key", "whether two texts are a key: of an import of modules alone in the one, of a world in the other"),
    ("wc_module_ways::has_key wc_ways::has_named", "whether a list has a name: of imports in the one, of entries in the other"),
    ("wcwhy::IsReportedAs wcplan::IsReportedAs", "a fault as a line or as JSON, each over its own `IsReported`"),
    ("wc_why_text::short_item wc_why_text::name_text", "an item by its name: in a label in the one, in a line in the other"),
    ("wc_why_text::caller_lines wc_why_text::caller_lines", "the callers of an item: in a label in the one, in lines in the other"),
    ("wc_import_paths::export_named wc_ways::export_named", "the export of a name: the two crates cite it in clauses of their own"),
    ("wc_import_paths::bare_graph wc_summary::graph_alone", "the graph of a module without its segments, in crates that don't cite each other"),
    ("wc_graph::items_of wc_why::items_of", "the items of a vector, each for proofs of its own crate"),
    ("wc_graph::sets_view wc_why::groups_view", "vectors of vectors as lists, each for proofs of its own crate"),
    ("wc_dedupe::new_name wc_dedupe::import_name", "the name of a rename and that of an import: records of two types"),
    ("wc_read::func_value wc_read::global_value", "one for each kind of item, at its types"),
    ("wc_read::table_value wc_read::memory_value", "one for each kind of item, at its types"),
    ("wc_resolve::type_entry wc_resolve::interface_entry", "one for each kind of id"),
    ("wc_validate::AreSameTypesButIndices wc_gc::AreSameTypesButIndices", "types of imports in the one, of items in the other"),
    ("wc_read::GlobalNameValue wc_why_text::Symbol wc_record::UsedInterface", "an index and a name: of a global, of an interface; a length and a text"),
    ("wc_calls::dedupe_is_memory wc_calls::gc_is_memory wc_calls::validate_is_memory", "one for each kind of faults"),
    ("wc_validate::first_some wcplan_inputs::first_interface", "the first that is there: of types in the one, of interfaces in the other"),
    ("wc_record::space_text wc_why_text::space_name", "the names of spaces: in JSON in the one, in lines in the other"),
    ("wc_selection::has_any wc_import_paths::are_asked wc_import_paths::are_functions", "whether a list has something: keys, imports, functions"),
    ("wc_maps::text_of wc_why::text_of wc_options::text_of", "the bytes of a text, in crates that don't cite each other"),
    ("wc_selection::unversioned_text wc_why::unversioned_text", "a name without its version, in crates that don't cite each other"),
    ("wc_import_paths::PatternView wc_import_paths::ModuleKey", "a text and perhaps another: what a pattern asks for, and a key cut at its version"),
    ("wc_why::Halves wc_why_text::Piece wc_module_ways::Given wc_module_ways::NamePair",
     "two texts: what a text is cut into, a part of a name and what follows, an adapter with its bytes, and a name under another"),
    ("wc_maps::text_pair wc_module_ways::given_view wc_module_ways::pair_view", "two texts: of any pair, of an adapter with its bytes, of a name under another"),
    ("wcwhy::is_package_alike wcplan_inputs::package_alike", "each over the `is_alike` that it has"),
    ("wcwhy::finish wcplan_inputs::finish", "what is read is made a command, each over its own `finish_with`"),
    ("wc_validate::core_import wc_validate::imported_function", "records of two types: of any import, of a function's"),
    ("wc_resolve::item_function wc_names::as_function", "an item that is a function: in a function's place in the one, under a name in the other"),
    ("wcwhy::is_alike wcplan_inputs::is_alike", "each over the `unversioned_text` that it has: that of wc_why in the one, that of wc_selection in the other"),
    ("wc_encoder::IsExported wc_selection::IsKeyOf", "a key of some entries: of a world's exports in the one, of its imports too in the other"),
]

# Lines


def counted(path):
    """The lines of a file that count, with their numbers."""
    found, is_use = [], False
    for number, line in enumerate(path.read_text(encoding="utf-8").split("\n"), 1):
        text = re.sub(r"\s+(//|--)\s.*", "", line).strip()
        is_use = is_use or bool(re.match(r"(pub(\([^)]*\))? )?(ghost )?use\b", text))
        if text and not is_use and not text.startswith(("//", "--")) and not re.fullmatch(r"[\[\](){},;]*", text):
            found.append((number, text))
        is_use = is_use and path.suffix == ".rt" and not text.endswith(";")
    return found


def matches(sources):
    """The longest texts that are written twice: their lines, and where: a path, and the numbers of the first and the last line."""
    windows = collections.defaultdict(list)
    for path, lines in sources.items():
        for at in range(len(lines) - LEAST_LINES + 1):
            window = tuple(text for _, text in lines[at : at + LEAST_LINES])
            if len(set(window)) >= LEAST_DIFFERENT:
                windows[window].append((path, at))
    found = {}
    for places in windows.values():
        for (path, at), (other, there) in itertools.combinations(places, 2):
            one, two = sources[path], sources[other]
            if at and there and one[at - 1][1] == two[there - 1][1]:
                continue
            length = LEAST_LINES
            while at + length < len(one) and there + length < len(two) and one[at + length][1] == two[there + length][1]:
                length += 1
            if path == other and abs(at - there) < length:
                continue
            text = tuple(it for _, it in one[at : at + length])
            of = found.setdefault(text, [])
            for file, start in (path, at), (other, there):
                place = file, sources[file][start][0], sources[file][start + length - 1][0]
                of += [] if place in of else [place]
    return sorted(found.items(), key=lambda it: (-len(it[0]), str(it[1])))


def owner(path, number):
    """The function or the definition in which a line is."""
    lines = path.read_text(encoding="utf-8").split("\n")[:number]
    head = re.compile(r"\s*(?:pub(?:\([^)]*\))? )?(?:const |extern \"C\" |unsafe )*fn (\w+)|(?:static|const) (\w+)" if path.suffix == ".rt"
                      else r"(?:pub |abbrev |unfoldable |record |data |ruleset )*(\S+) ")
    for line in reversed(lines):
        name = head.match(line)
        if name and not line.startswith((" " if path.suffix == ".antt" else "\0", "--", "use ")):
            return next(it for it in name.groups() if it)
    return ""


# Definitions

WORD = re.compile(r"\"[^\"]*\"|[\w'◌]+|[^\w\s'◌]")
HEAD = re.compile(r"((?:pub |abbrev |unfoldable |ruleset )*(?:record |data )?)(\S+)")


def plain_parts(text):
    """The top-level parts of a file, without comments."""
    for _, lines in parts_of(text):
        plain = (re.sub(r"(^|\s)--(\s.*|$)", "", line).rstrip() for line in lines)
        yield [line for line in plain if line]


def imported(text):
    """The names that a file imports, each with its name there."""
    return {here: there for _, there, here in imports_of(text)}


def bound_in(text):
    """The names that a text binds: by `λ x.`, and in `(x y : T)` and `{x : T}`."""
    texts = [*re.findall(r"λ ([^.]*)\.", text), *re.findall(r"[({]([\w' ]+) : ", text)]
    return {word for it in texts for word in re.findall(r"[\w']+", it)}


def words_of(text, bound, names, own=""):
    """The words of a text: what is bound in it is called alike wherever it is bound in the same order; what is imported has
    the name that it has where it comes from; and its own name is a point."""
    # the point after what is bound is none of a field
    variables, found, before, words = {}, [], "", WORD.findall(re.sub(r"\.(?=\s)", " ⋅ ", text))
    for word, after in zip(words, words[1:] + [""]):
        is_field = before == "." or before in ("{", ";") and after == "="
        if word in bound and not is_field:
            word = variables.setdefault(word, "v%d" % len(variables))
        elif not is_field:
            word = "·" if own and word == own else names.get(word, word)
        found.append(word)
        before = word
    return tuple(found)


class Definition:
    """A definition: its type, and its body, as words, with its own name and its variables made alike."""

    def __init__(self, path, kind, name, signature, body, names, known):
        self.path, self.kind, self.name = path, kind, name
        self.crate = path.relative_to(TOP / "crates").parts[0]
        # what is bound on the left of `=`, by `λ x.`, and in `(x : T)`
        lefts = [line.split(" = ")[0].removesuffix(" =") for line in body if line.startswith(name + " ")]
        bound = {word for text in lefts for word in re.findall(r"[\w']+", text)} | bound_in(signature + " ".join(body))
        self.bound = bound - known - set(names) - {name}
        self.type = words_of(signature.partition(name)[2], self.bound, names, name)
        self.key = kind, words_of(" ".join(body), self.bound, names, name)

    def shown(self):
        return " ".join(self.key[1])[:200]


def definitions(crate):
    for path in files_of(crate, "specs", ".antt"):
        text = path.read_text(encoding="utf-8")
        names, parts = imported(text), list(plain_parts(text))
        known = {HEAD.match(part[0])[2] for part in parts if not part[0].startswith(("use ", "mod ", "pub mod "))}
        at = 0
        while at < len(parts):
            head = HEAD.match(parts[at][0])
            kind, name = head[1].replace("pub ", "").replace("unfoldable ", "").strip(), head[2]
            if kind in ("record", "data"):
                first, *rest = parts[at]
                if not rest:
                    first, _, body = first.partition(" where ")
                    rest = [body]
                # a record's fields and a data's constructors are names that callers use, so they count
                fields = set(re.findall(r"^\s*(?:pub )?(\w+) :", "\n".join(rest), re.M))
                yield Definition(path, kind, name, first, rest, names, known | fields)
            elif head[1].strip() and ":" in parts[at][0].split(" = ")[0]:
                signature, body = " ".join(parts[at]), []
                while at + 1 < len(parts) and parts[at + 1][0].split(" ")[0] == name:
                    at += 1
                    body += parts[at]
                yield Definition(path, "abbrev", name, signature, body, names, known)
            at += 1


# Statements

STATEMENT = re.compile(r"( *)((?:pub |abbrev |unfoldable |lemma )*)([^\s:]+) : (.*)")


class Statement:
    """What a lemma states, as words, with its variables made alike; in a section, after what the section has."""

    def __init__(self, crate, path, name, text, names):
        self.crate, self.path, self.name = crate, path, name
        self.key = words_of(text, bound_in(text) - set(names) - {name}, names)

    def shown(self):
        return " ".join(self.key)[:200]


def statements(crate):
    """The lemmas of a crate, in the files of its proofs that have lemmas."""
    for path in files_of(crate, "proofs", "Lemmas.antt"):
        text = path.read_text(encoding="utf-8")
        names, section, parts = imported(text), "", list(plain_parts(text))
        for number, lines in enumerate(parts):
            head = re.match(r"module _ (.*?)(?: where)?$", lines[0])
            section, indent = (" ".join(lines).partition("where")[0].removeprefix("module _"), 2) if head else ("", 0)
            if lines[0].startswith(("use ", "mod ", "pub use ", "pub mod ")):
                continue
            at = 0
            while at < len(lines):
                found = STATEMENT.match(lines[at])
                at += 1
                if found and len(found[1]) == indent:
                    stated = found[4]
                    while at < len(lines) and len(lines[at]) - len(lines[at].lstrip()) > indent:
                        stated += " " + lines[at].strip()
                        at += 1
                    # what an abbreviation is belongs to what it states
                    if "abbrev" in found[2]:
                        rest = lines[at:] + [line for part in parts[number + 1:] for line in part]
                        own = itertools.takewhile(lambda line: line.split()[0] == found[3] or line.startswith(found[1] + "  "), rest)
                        stated += " = " + " ".join(line.strip() for line in own)
                    # what has a type that states nothing is a definition of the file's own
                    if not found[3][0].isupper() and re.search("[→≡≢<≤↔]", stated) and not stated.endswith("Type 0"):
                        yield Statement(crate, path, found[3], section + " → " + stated, names)


def stated_twice(crates):
    """The lemmas that state one thing, in groups, by what is stored of a group: a sum of what they state."""
    return grouped(it for crate in crates for it in statements(crate) if len(it.key) >= LEAST_STATEMENT)


def grouped(its):
    """Those that are equal, in groups of two and more, by their sums."""
    groups = collections.defaultdict(list)
    for it in its:
        groups[sum_of(it.key)].append(it)
    return {key: its for key, its in groups.items() if len(its) > 1}


def sum_of(words):
    return hashlib.sha256(" ".join(words).encode()).hexdigest()[:12]


def defined_twice(crates):
    """The definitions that have one body, in groups, by their sums, but for those of ALIKE; and which entries there fit."""
    groups, used = {}, set()
    for its in alike([it for crate in crates for it in definitions(crate)]):
        names = {"%s::%s" % (it.crate, it.name) for it in its}
        reasons = [n for n, (of, _) in enumerate(ALIKE) if names <= set(of.split())]
        used |= {("alike", n) for n in reasons}
        if not reasons:
            groups[sum_of((*its[0].key[1], *sorted({" ".join(it.type) for it in its})))] = its
    return groups, used


def stored():
    """How many copies of each there may be, by its sum."""
    lines = [line.split() for line in STORE.read_text(encoding="utf-8").splitlines() if line[:1] != "#"]
    return {key: int(count) for key, count, *_ in lines}


def compare(groups, may, shows_all):
    """Prints which groups have more copies than are stored; how many."""
    wrong = 0
    for key, its in groups.items():
        is_more = len(its) > may.get(key, 1)
        wrong += is_more
        if is_more or shows_all:
            where = "; ".join("%s::%s (%s)" % (it.crate, it.name, it.path.relative_to(TOP / "crates" / it.crate)) for it in its)
            print("%d times, %d stored: %s: %s" % (len(its), may.get(key, 1), where, its[0].shown()))
    return wrong


def shrink(groups, may):
    """Stores fewer copies where there are fewer; none more."""
    lines = ["%s %d %s\n" % (key, min(len(its), may[key]), " ".join("%s::%s" % (it.crate, it.name) for it in its))
             for key, its in groups.items() if key in may]
    STORE.write_text(STORED_HEAD + "".join(sorted(lines, key=lambda line: line.split()[2])), encoding="utf-8")


def alike(found):
    """The definitions that have one body, in groups: those of one type, where they are of different crates, or else long."""
    groups, kept = collections.defaultdict(list), []
    for it in found:
        if len(it.key[1]) >= LEAST_WORDS:
            groups[it.key].append(it)
    for (_, body), its in groups.items():
        if len(body) < LEAST_ALIKE:
            by_type = collections.defaultdict(list)
            for it in its:
                by_type[it.type].append(it)
            kept += [of for of in by_type.values() if len({it.crate for it in of}) > 1]
        elif len(its) > 1:
            kept.append(its)
    return sorted(kept, key=lambda its: -len(its[0].key[1]))


def main():
    parser = argparse.ArgumentParser(description=__doc__, formatter_class=argparse.RawDescriptionHelpFormatter)
    parser.add_argument("--all", action="store_true")
    parser.add_argument("--shrink", action="store_true")
    parser.add_argument("crates", nargs="*", metavar="CRATE")
    given = parser.parse_args()
    chosen, every = given.crates or product_crates(), given.crates or list(used_by_crates())
    stated, (defined, used) = stated_twice(every), defined_twice(every)
    if given.shrink and not given.crates:
        shrink({**stated, **defined}, stored())
    may = stored()
    found = compare(stated, may, given.all) + compare(defined, may, given.all)
    paths = [path for crate in chosen for path in files_of(crate, "src", ".rt") + files_of(crate, "specs", ".antt")]
    show = lambda path: path.relative_to(TOP / "crates")
    for text, places in matches({path: counted(path) for path in paths}):
        where = ", ".join("%s:%d-%d (%s)" % (show(path), first, last, owner(path, first)) for path, first, last in places)
        reasons = [n for n, (line, _) in enumerate(BOILERPLATE) if re.match(line, where)]
        used |= {("lines", n) for n in reasons}
        found += not reasons
        if given.all or not reasons:
            print("%d lines: %s%s" % (len(text), where, "; left out: " + BOILERPLATE[reasons[0]][1] if reasons else ""))
    stale = [("lines", n) for n in range(len(BOILERPLATE))] + [("alike", n) for n in range(len(ALIKE))]
    for kind, n in stale if not given.crates else []:
        if (kind, n) not in used:
            print("fits nothing any more: %s" % (BOILERPLATE if kind == "lines" else ALIKE)[n][0])
            found += 1
    groups = {**stated, **defined}
    for key, count in may.items() if not given.crates else []:
        if len(groups.get(key, [])) < count:
            print("%s stands %d times, %d stored: checks/duplicates.py --shrink" % (key, len(groups.get(key, [])), count))
            found += 1
    print("%d found in %d crates" % (found, len(every)))
    return 1 if found else 0


if __name__ == "__main__":
    sys.exit(main())
