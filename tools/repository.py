"""What the scripts read of the repository: its crates and what each uses, their files, and the kit."""
import functools
import os
import pathlib
import re
import shutil
import subprocess
import sys

TOP = pathlib.Path(__file__).resolve().parent.parent
KIT = "/opt/rattle"
# the crates of the tests, whose functions promise nothing to others
TESTS = re.compile(r"wc_(lines|fixtures|tests|\w*rows)$")
# the marks around the table of what proofs cost, in docs/MAP.md
COSTS_BEGIN, COSTS_END = "<!-- costs: bench/gate-costs.py -->", "<!-- end of costs -->"
HEAD = re.compile(r'^( *)(?:pub(?:\([^)]*\))? )?((?:const |unsafe |extern "C" )*)fn (\w+)')
IMPL = re.compile(r"^ *(?:unsafe )?impl\b")


def read(*parts):
    """The text of a file of the repository."""
    return TOP.joinpath(*parts).read_text(encoding="utf-8")


def lines_of_crates(top=TOP):
    """For each line of crates.txt the crate, its kinds, as `staticlib`, and the libraries that it uses."""
    for line in (pathlib.Path(top) / "crates.txt").read_text(encoding="utf-8").splitlines():
        head, found, libraries = line.partition("#")[0].partition(":")
        if found:
            name, *kinds = head.split()
            yield name, kinds, libraries.split()


def used_by_crates(top=TOP):
    """The libraries that each crate uses, by crates.txt: the repository's own, and the kit's."""
    return {name: libraries for name, _, libraries in lines_of_crates(top)}


def product_crates():
    """The crates but those of the tests, in the order of crates.txt."""
    return [name for name, _, _ in lines_of_crates() if not TESTS.match(name)]


def is_program(crate):
    return (TOP / "crates" / crate / "src" / "main.rt").is_file()


def libraries():
    """The crates that others call: neither tests nor programs nor static libraries."""
    static = {name for name, kinds, _ in lines_of_crates() if "staticlib" in kinds}
    return [name for name in product_crates() if name not in static and not is_program(name)]


def crates_below(crate, used=None):
    """The crates that a crate uses, each after those that it uses itself; the crate comes last."""
    used, order = used or used_by_crates(), []

    def visit(name):
        for library in used[name]:
            if library in used and library not in order:
                visit(library)
        order.append(name)

    visit(crate)
    return order


def files_of(crate, part, ending):
    """The files of a folder of a crate, and of the folders in it."""
    return sorted((TOP / "crates" / crate / part).rglob("*" + ending))


def code_of(path):
    """A source of Rattle without the lines that are comments."""
    return re.sub(r"^\s*//.*\n", "", pathlib.Path(path).read_text(encoding="utf-8"), flags=re.M)


class Function:
    """A function of a source file: its path below the crate, and the lines of its head and of its body. Its `text` is the
    head, with its clauses. Of a method `owner` is the type, or the trait that declares it (`in_trait` is then what is before
    the word), and `trait` the trait that the type has it of."""

    def __init__(self, file, name, owner, trait, lines, places, whole):
        self.file, self.name, self.owner, self.trait = file, name, owner, trait
        self.has_body, self.is_public, self.in_trait, self.text = True, False, "", ""
        # the lines of the head, of the body's opening and of its end, and their places in the text
        self.head, self.first, self.last = lines
        self.begins, self.opens, self.ends = places
        # has to stay as it is: a const function, a default method, a function of a cycle
        self.whole = whole
        module = file[len("src/") : -len(".rt")].replace("/", "::")
        self.module = "" if module in ("lib", "main") else re.sub(r"::mod$", "", module)
        self.key = (file, owner, trait, name)

    def path(self):
        return "::".join(it for it in (self.module, self.owner + self.trait, self.name) if it)


def type_name(text):
    """The last word of a type's or a trait's path, without references and arguments; of a tuple the kit's, as `Tuple2U32RefStr`."""
    text = text.strip()
    if text.startswith("(") and "," in text and "<" not in text:
        parts = [it.strip() for it in text.strip("()").split(",")]
        names = ["Ref" * it.startswith("&") + type_name(it)[:1].upper() + type_name(it)[1:] for it in parts]
        return f"Tuple{len(parts)}" + "".join(names)
    text = re.sub(r"<.*", "", text)
    text = re.sub(r"^&(?:'\w+ )?(?:mut )?", "", text)
    return re.sub(r"\W", "", text.split("::")[-1])


def arguments_end(text, at):
    """The end of the generic arguments that begin at a place."""
    depth = 0
    for i in range(at, len(text)):
        depth += {"<": 1, ">": -1}.get(text[i], 0) if text[i - 1 : i + 1] != "->" else 0
        if not depth:
            return i + 1
    return at


def owner_of(line):
    """The type and the trait of an `impl` line."""
    text = line.strip().split("impl", 1)[1]
    text = text[arguments_end(text, 0) :] if text.startswith("<") else text
    text = re.sub(r"\s+where\b.*", "", text).rstrip(" {}")
    trait, has_trait, owner = text.partition(" for ")
    return (type_name(owner), type_name(trait)) if has_trait else (type_name(text), "")


@functools.lru_cache(maxsize=None)
def functions_of(file, text):
    """The functions of a file in the layout of `rt fmt`."""
    lines, found, owner, starts = text.split("\n"), [], ("", "", ""), [0]
    for line in lines:
        starts.append(starts[-1] + len(line) + 1)
    for n, line in enumerate(lines):
        if IMPL.match(line) and not line.startswith(" "):
            owner = (*owner_of(line), "")
        elif re.match(r"(?:pub(?:\([^)]*\))? )?(?:unsafe )?trait (\w+)", line):
            owner = (re.search(r"trait (\w+)", line)[1], "", line[: line.index("trait")] + "trait")
        elif line.startswith("}"):
            owner = ("", "", "")
        head = HEAD.match(line)
        if not head:
            continue
        indent, at, depth = head[1], n, 0
        while at < len(lines):
            it = lines[at]
            mine = it.startswith(indent) and not it[len(indent) :].startswith((" ", "//"))
            # a record in a clause has lines that end so, too
            depth += it.count("{") - it.count("}")
            if mine and (it == indent + "{" or it.endswith((" {", "{}"))) or it.endswith(";") and not depth:
                break
            at += 1
        if at == len(lines):
            continue
        end, has_body = at, not lines[at].endswith(";")
        while has_body and not lines[at].endswith("{}") and end < len(lines) and lines[end] != indent + "}":
            end += 1
        attributes, up = "", n - 1
        while up >= 0 and re.match(r" *(#\[|///)", lines[up]):
            attributes += lines[up]
            up -= 1
        whole = "const" in head[2] or "#[cycle" in attributes or bool(owner[2])
        in_type = owner if indent else ("", "", "")
        places = starts[n], starts[at + 1] - 1, starts[min(end + 1, len(lines))] - 1
        it = Function(file, head[3], in_type[0], in_type[1], (n, at, end), places, whole)
        it.has_body, it.is_public, it.in_trait = has_body, line.lstrip().startswith("pub fn"), in_type[2]
        it.text = "\n".join(lines[n : at + 1])
        found.append(it)
    return found


def parts_of(text):
    """What begins in the first column of a file of specs or proofs, in its order: the comments before it, and its lines."""
    found, comments = [], []
    for line in text.splitlines():
        if line.startswith("--"):
            comments.append(line)
        elif line[:1] in (" ", "}"):
            found[-1][1].append(line)
        elif line:
            found.append((comments, [line]))
            comments = []
    return found


def imports_of(text):
    """The names that a file imports by lists: the path of each one's file, its name there, and its name here."""
    for path, names in re.findall(r"^\s*(?:pub |ghost )*use (?:Rattle\.)?([^\s{]+)\.\{([^}]*)\}", text, re.M):
        for name in names.split(","):
            there, _, here = name.strip().partition(" as ")
            yield path, there, here or there


def exports_of_crate(crate):
    """The names that a library's root file exports; none of a program."""
    path = TOP / "crates" / crate / "src" / "lib.rt"
    exports = re.findall(r"pub use [\w:]+::(\{[^}]*\}|\w+)", code_of(path) if path.is_file() else "")
    return {word for names in exports for word in re.findall(r"\w+", names)}


# The folders of rows: those of the program of rows, and those that tests/rows.py asks of the library and the programs.
ROW_FOLDERS = "crates/wc_tests/data", "tests/rows"


def row_files(*folders):
    """The files of rows of the tests, of these folders or of all."""
    return [path for folder in folders or ROW_FOLDERS for path in sorted((TOP / folder).glob("*.rows"))]


def costs_on(page):
    """The minutes of each crate's proof and of its edits, in the table on a page; the last row, `all`, is their sum."""
    rows = re.findall(r"^\| `?(\w+)`? \| ([\d.]+) \| ([\d.]*) \|$", page.partition(COSTS_BEGIN)[2].partition(COSTS_END)[0], re.M)
    return {name: (float(proof), float(edits or 0)) for name, proof, edits in rows}


def need(*wanted):
    """Ends the script if a command or a file is missing; each text has it, and Debian's package that has it."""
    for name, package in map(str.split, wanted):
        if not (os.path.exists(name) or shutil.which(name)):
            sys.exit(f"{sys.argv[0]}: {name} is missing: apt-get install {package}")


def run(*command, **how):
    """What a command prints; ends the script if it fails."""
    ran = subprocess.run(list(map(str, command)), capture_output=True, text=True, check=False, **how)
    if ran.returncode:
        sys.exit(f"{' '.join(map(str, command))}\n{ran.stdout}{ran.stderr}")
    return ran.stdout


def put_between(page, begin, end, text):
    """A page with a text between two marks, and the text that it has there."""
    front, found, rest = page.partition(begin)
    old, ended, back = rest.partition(end)
    if not (found and ended):
        sys.exit("a page lacks the two lines that a table is put between:\n" + begin + end)
    return front + begin + text + end + back, old


def kit_folder():
    """The folder of the kit that has the rt on PATH; None if there is no rt."""
    rt = shutil.which("rt")
    return None if rt is None else os.path.dirname(os.path.dirname(os.path.realpath(rt)))


def uses_of_kit(kit, library):
    """The libraries of the kit that a library of the kit uses."""
    with open(os.path.join(kit, "rlibs", library + ".rlib", "format"), encoding="utf-8") as file:
        return re.findall(r"^dep (\w+)$", file.read(), re.M)


def rlib_of(crate, top=TOP):
    """Where `rt ci` leaves the statements and the code of a crate."""
    return os.path.join(top, "crates", crate, "out", "rlib")


def kit_command(what, crate, flags, top=TOP, folder_of=rlib_of):
    """The command that checks or builds a crate in its folder, as rt does, over what is proved of the crates below it:
    `folder_of` says in which folder each has its statements."""
    kit, used = kit_folder() or KIT, used_by_crates(top)
    if crate not in used:
        sys.exit(f"crates.txt has no crate {crate}")
    below = crates_below(crate, used)[:-1]
    for name in below:
        if not os.path.isdir(os.path.join(folder_of(name), name + ".rlib")):
            sys.exit(f"{name} is not proved in {folder_of(name)}: run `rt ci` first")
    root = next(it for it in ("src/main.rt", "src/lib.rt") if os.path.exists(os.path.join(top, "crates", crate, it)))
    words = [f"{kit}/bin/rattle", what, "--crate-name", crate, root, "--extern", f"std={kit}/rlibs/std.rlib"]
    for name in used[crate]:
        words += ["--extern", f"{name}={folder_of(name) if name in used else kit + '/rlibs'}/{name}.rlib"]
    for folder in dict.fromkeys([f"{kit}/rlibs", *map(folder_of, below)]):
        words += ["-L", f"dependency={folder}"]
    kinds = next(kinds for name, kinds, _ in lines_of_crates(top) if name == crate)
    words += ["--crate-type", "staticlib"] if "staticlib" in kinds else []
    words += ["--antt-project", f"{kit}/rattle/logic/antt-project.json", "--logic-built", f"{kit}/logic_built"]
    return [*words, "--links", f"{crate}=", *flags]


def edits_of(crate):
    """The edits of a crate, which the prover has to refuse: the name and the text of each, and whether the gate tries it."""
    file = TOP / "edits" / f"{crate}.edits"
    parts = re.split(r"(?m)^edit (\S+)\n", read(file) if file.is_file() else "")[1:]
    for name, text in zip(parts[::2], parts[1::2]):
        yield name, text.rstrip("\n") + "\n", False
    for path in sorted((TOP / "crates" / crate / "must-fail").glob("*.edit")):
        yield path.stem, read(path), True


def changes_of(edit):
    """The changes that the text of an edit makes: each a file, what is there, and what comes in its place."""
    file, old = "", ""
    for line in edit.split("\n"):
        if line.startswith("file: "):
            file = line[len("file: ") :].strip()
        elif line.startswith("old: "):
            old = line[len("old: ") :]
        elif line.startswith("new:"):
            yield file, old, line[len("new:") :].removeprefix(" ")


def applied(edit, texts):
    """The texts that an edit changes, as it makes them of these; or why it cannot be applied."""
    made = {}
    for file, old, new in changes_of(edit):
        text = made.get(file, texts.get(file))
        if text is None:
            return {}, f"the file {file} is missing"
        if text.count(old) != 1:
            return {}, f"an 'old:' text is in {file} {text.count(old)} times: {old[:60]}"
        made[file] = text.replace(old, new)
    return made, "" if made else "it changes nothing"


def texts_of(crate, top=TOP):
    """The texts of a crate's files, by their paths in the crate."""
    folder = pathlib.Path(top) / "crates" / crate
    paths = [path for part in ("src", "specs", "proofs") for path in (folder / part).rglob("*") if path.is_file()]
    return {str(path.relative_to(folder)): path.read_text(encoding="utf-8") for path in sorted(paths)}
