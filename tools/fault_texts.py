"""The texts of faults, as the definitions of specs/ say them.

A definition `X_text : X → List ℕ` has a clause for each variant. `texts_of_faults` gives each as a pattern, in which `{0}`,
`{1}`, .. stand for what the variant carries, with the types of these: the enum of a fault that is carried, or "String".
"""
import functools
import itertools
import re

from repository import files_of, imports_of, product_crates

TOKEN = re.compile(r'"((?:[^"\\]|\\.)*)"|(\+\+)|([()])|([^\s()"]+)')
# The definitions of texts that aren't named after their enum.
OTHER_NAMES = {"ToolFault": "command_fault_text"}
# What leaves a text as it is, in how it is read here.
PLAIN = ("codes", "string_bytes", "escaped", "decimal", "word", "text_of", "option_map")


class Definition:
    """A definition of a text: its crate, its file's names from other crates, the type of what it is of, and its clauses."""

    def __init__(self, crate, names, type_name):
        self.crate, self.names, self.type_name, self.clauses = crate, names, type_name, []


@functools.cache
def definitions():
    """The definitions of texts, by crate and name."""
    found = {}
    for crate in product_crates():
        for path in files_of(crate, "specs", ".antt"):
            text = re.sub(r"^--.*\n", "", path.read_text(), flags=re.M)
            names = {here: (of.partition(".")[0], there) for of, there, here in imports_of(text)}
            for name, type_name in re.findall(r"^abbrev pub (\w+) : (?:(\S+) → )?(?:.* → )?List ℕ$", text, re.M):
                found[crate, name] = Definition(crate, names, type_name)
            for name, before, after in re.findall(r"^(\w+)( [^:=\n]*)? =((?:.|\n )*)$", text, re.M):
                if (crate, name) in found:
                    found[crate, name].clauses.append((patterns_of(before), after))
    return found


def patterns_of(text):
    """The patterns of a clause: each a list, of a constructor and its variables, or of one variable."""
    return [(inner or own).split() for inner, own in re.findall(r"\(([^()]*)\)|(\S+)", text or "")]


def tree_of(text):
    """An expression as a tree: a list of what is applied and its arguments; a text is a tuple, and `++` an item."""
    stack = [[]]
    for quoted, joined, bracket, word in TOKEN.findall(text):
        if bracket == "(":
            stack.append([])
        elif bracket == ")":
            inner = stack.pop()
            stack[-1].append(inner)
        else:
            stack[-1].append(joined or word or (quoted,))
    return stack[0]


def is_constructor(word):
    return word[0].isupper() or word.rpartition(".")[2][0].isupper()


def read(tree, names, crate, values):
    """The texts that an expression may be: each a list of parts, which are texts, or a pair of a variable and its type."""
    if isinstance(tree, tuple):
        return [[tree[0].replace('\\"', '"')]]
    if isinstance(tree, str):
        return read_word(tree, [], names, crate, values)
    if "++" in tree:
        at = tree.index("++")
        return joined(read(tree[:at], names, crate, values), read(tree[at + 1:], names, crate, values))
    if isinstance(tree[0], (list, tuple)):
        return read(tree[0], names, crate, values)
    return read_word(tree[0], tree[1:], names, crate, values)


def joined(first, second):
    return [a + b for a, b in itertools.product(first, second)]


def read_word(word, arguments, names, crate, values):
    own = word.removesuffix(".now")
    if own in values:
        return values[own]
    if own in PLAIN:
        return read(arguments[-1], names, crate, values)
    of = definitions().get(names.get(own, (crate, own)))
    if not of:
        return [[(own, "String")]]
    return [text for patterns, after in of.clauses for text in read_clause(of, patterns, after, arguments, (names, crate, values))]


def read_clause(of, patterns, after, arguments, outer):
    """The texts of a clause with these arguments. A fault that is carried is not taken apart, if its enum has one text."""
    if of in main_texts().values():
        return [[("fault", of.type_name)]] if patterns is of.clauses[0][0] else []
    values = {}
    for pattern, argument in zip(patterns, arguments):
        if is_constructor(pattern[0]) or len(pattern) > 1:
            values.update((variable, [[(variable, "String")]]) for variable in pattern[1:])
        else:
            values[pattern[0]] = read(argument, *outer)
    rest = {"rest%d" % number: read(argument, *outer) for number, argument in enumerate(arguments[len(patterns):])}
    return read(tree_of(after) + list(rest), of.names, of.crate, {**values, **rest})


def is_fault(name):
    return name.endswith("Fault") or name in ("Problem", "WrongView")


@functools.cache
def main_texts():
    """The definition of the text of each enum, by the enum and its crate."""
    found = {}
    for (crate, name), of in definitions().items():
        if is_fault(of.type_name) and name in (snake(of.type_name) + "_text", "wrong_text", OTHER_NAMES.get(of.type_name)):
            found[of.type_name, crate] = of
    return found


def snake(name):
    return re.sub(r"(?<=[a-z])([A-Z])", r"_\1", name).lower()


def camel(name):
    return "".join(part.capitalize() for part in name.split("_")) if name.islower() else name


def texts_of_faults():
    """The variants of each enum, by enum and crate: the name, a text with `{0}`, `{1}`, .., and the types of these."""
    found = {}
    for (enum, crate), of in main_texts().items():
        variants = []
        for patterns, after in of.clauses:
            values = {variable: [[(variable, "String")]] for variable in patterns[0][1:]}
            for parts in read(tree_of(after), of.names, of.crate, values):
                types = [part[1] for part in parts if isinstance(part, tuple)]
                number = iter(range(len(types)))
                text = "".join(part if isinstance(part, str) else "{%d}" % next(number) for part in parts)
                own = of.names.get(patterns[0][0], (crate, patterns[0][0]))[1]
                variants.append((camel(own), text, types))
        found["WrongArgument" if enum == "WrongView" else enum, crate] = variants
    return found
