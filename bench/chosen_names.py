"""The cases of slow-inputs.py whose names are chosen to collide, each with N names (2,048) and twice as many. The chosen names
have one hash in a table with a fixed seed (colliding.py); the plain names are as long and as alike, and don't collide. Some
cases come several times, with names that collide as parts of different keys.
"""
import json
import sys

import colliding
from colliding import SEED, after_number
from slow_shapes import ADAPTER, MAIN, OUT, TOP, WORLDS, core, function, interface, name, number, row, section, vector, write

sys.path.append(str(TOP / "tests"))
from described_modules import described
from worlds import encoder_of, lines_of_bytes, program_input

# as many arguments as a command line has room for
ARGUMENTS = 4096
# The hash's state before the text of a key: of one that is a text; of one that is a text or something else, after the
# number that says which; of a function's, after the interface 0; of a call's, without an owner and an interface.
FIRST, SECOND = after_number(SEED, 0, 8), after_number(SEED, 1, 8)
STATES = {"text": SEED, "first": FIRST, "second": SECOND}
STATES.update(function=after_number(SECOND, 0, 4), call=after_number(FIRST, 0, 8))
CASES = {}


def case(title, program, make, states="text", before="", after="", most=None):
    """Adds a case for each of these states. Its names, at most so many, collide as parts of keys, between these texts.
    The function writes the input for some names, and gives the program's arguments."""
    for state in states.split():

        def keys(count, largest, state=STATES[state]):
            return [texts[:count] for texts in colliding.names(largest, state, before, after)]

        CASES[title if states == "text" else title + " " + state] = program, make, keys, most


def each(text, names):
    return [text % name for name in names]


def module(imports=(), exported=(), last=b"", path=MAIN):
    """Writes a module with these imports of functions, and with functions that are exported by these names."""
    made = core(path, [(*it, 0) for it in imports], [(text, len(imports) + at) for at, text in enumerate(exported)], defined=[0] * len(exported))
    write(path, made + last)


def dedupe(imports):
    """The first import comes twice, since no names are looked up where none does."""
    module([*imports, imports[0]])
    return ["dedupe", MAIN, OUT]


def trim(exported, required, last=b""):
    module((), exported, last)
    return ["trim", MAIN, OUT, *required]


def scan(exported):
    module((), exported)
    return ["scan", MAIN]


def trim_globals(numbers):
    """Numbers of globals that have names; there need not be such globals."""
    named = vector([number(at) + name("g") for at in numbers])
    return trim(["f"], ["f"], section(0, name("name") + section(7, named)))


case("dedupe-names", "wctrim", lambda names: dedupe([("env", text) for text in names]))
case("dedupe-modules", "wctrim", lambda names: dedupe([(text, "f") for text in names]))
case("scan-exports", "wctrim", scan)
case("trim-exports", "wctrim", lambda names: trim(names, names[:4]))
case("trim-required", "wctrim", lambda names: trim(names, names), most=ARGUMENTS)
CASES["trim-globals"] = "wctrim", trim_globals, lambda count, _: colliding.numbers(count), None


def plan(worlds, interfaces=(), defined=(), packages=(), more=(), **main):
    """Writes worlds, in a package unless some are given, and a main module. The arguments are for the world `w`."""
    module(**main)
    packages = packages or [package("my:p", {}, worlds)]
    document = {"worlds": worlds, "interfaces": interfaces, "types": defined, "packages": packages}
    write(WORLDS, json.dumps(document).encode())
    return [WORLDS, "w", MAIN, *more]


def numbered(names):
    return {text: at for at, text in enumerate(names)}


def package(text, interfaces=(), worlds=()):
    return {"name": text, "interfaces": numbered(interfaces), "worlds": numbered(held["name"] for held in worlds)}


def face(text, held=(), defined=()):
    return interface(text, map(function, held), numbered(defined))


def world(imports=(), exported=(), text="w"):
    return {"name": text, "imports": dict(imports), "exports": dict(exported), "package": 0}


def alias(text):
    return {"name": text, "kind": {"type": "u8"}, "owner": {"interface": 0}}


def items(names):
    """Functions of a world."""
    return {text: {"function": function(text)} for text in names}


def faces(names):
    """The interface 0 under each of these names."""
    return {text: {"interface": {"id": 0}} for text in names}


def of(module, names):
    return [(module, text) for text in names]


def adapted(names):
    """A main module that imports all that an adapter exports."""
    module((), names, path=ADAPTER)
    return plan([world()], imports=of("a", names), more=["--adapt=a=" + ADAPTER])


case("package-names", "wcplan", lambda names: plan([world()], packages=[package(text) for text in each("%s:p", names)]))
case("package-worlds", "wcplan", lambda names: plan([world(text=text) for text in ["w", *names]]))
case("package-interfaces", "wcplan", lambda names: plan([world()], [face(text) for text in names],
                                                        packages=[package("my:p", names)]))
case("interface-types", "wcplan", lambda names: plan([world(faces("i"))], [face("i", (), names)],
                                                     [alias(text) for text in names]))
case("interface-imports", "wcplan", lambda names: plan([world(faces("i"))], [face("i", names)],
                                                       imports=of("i", names)), "text function")
case("interface-exports", "wcplan", lambda names: plan([world({}, faces("i"))], [face("i", names)],
                                                       exported=each("i#%s", names)), "text function")
case("interface-names", "wcplan", lambda names: plan([world(faces(names))], [face("i", "f")],
                                                     imports=[(text, "f") for text in names]), "text first second")
case("world-imports", "wcplan", lambda names: plan([world(items(names))], imports=of("$root", names)),
     "text first call")
case("world-exports", "wcplan", lambda names: plan([world({}, items(names))], exported=names), "text first")
case("adapter-exports", "wcplan", adapted)
case("adapters-given", "wcplan", lambda names: plan([world()], more=each("--adapt=%s=" + MAIN, names)), most=ARGUMENTS)


def module_of(script):
    """The module of lines, an import or an export each."""
    return described(each("do %s", script)).bytes()


def validate(world, script):
    return row("validate_module required none", program_input(world, module_of(script)))


def validate_adapter(members, script, required=()):
    """An adapter, from which the main module imports the functions that are required."""
    main = module_of(each("a %s func ->", required))
    lines = program_input(["world w", "adapter a -", *members], main) + lines_of_bytes("adapter a", module_of(script))
    return row("validate_adapter_module a required none", lines)


def one(word, names, *more):
    """A world that imports or exports an interface with these functions, as the word says, and more lines."""
    lines = ["interface i0 face of p0", *each("  func %s: ()", names), "package my:p", "  interface face i0"]
    return [*lines, "world w", "  %s i0: interface i0" % word, *more]


def several(word, packages):
    """A world that imports or exports an interface of each of these packages."""
    lines = []
    for at, text in enumerate(packages):
        lines += ["interface face of p%d" % at, "  func f: ()", "package " + text, "  interface face i%d" % at]
    return lines + ["world w"] + ["  %s i%d: interface i%d" % (word, at, at) for at in range(len(packages))]


case("resolve-packages", "wc_tests", lambda names: row(
    "package_named", [json.dumps(encoder_of(each("package %s:p", names)).resolve), 'asked "%s:p"' % names[-1]]))
case("imported-ids", "wc_tests", lambda names: validate(several("import", each("%s:p", names)),
                                                        each("%s:p/face f func ->", names)), after=":p/face")
case("imported-tracks", "wc_tests", lambda names: validate(several("import", each("%s:p@1.2.3", names)),
                                                           each("%s:p/face@1.4.0 f func ->", names)))
case("exported-ids", "wc_tests", lambda names: validate(
    several("export", each("%s:p", names)) + ["module-exports " + " ".join(each("i%d", range(len(names))))],
    each("export %s:p/face#f func ->", names)), after=":p/face")
case("function-imports", "wc_tests", lambda names: validate(one("import", names), each("my:p/face %s func ->", names)))


def function_exports(names):
    return validate(one("export", names, "module-exports i0"), each("export my:p/face#%s func ->", names))


case("function-exports", "wc_tests", function_exports, "text function")
case("whole-exports", "wc_tests", function_exports, before="my:p/face#")
case("adapter-imports", "wc_tests", lambda names: validate(["world w", *each("adapter %s -", names)],
                                                           each("%s f func ->", names)))
case("adapter-functions", "wc_tests", lambda names: validate_adapter(
    [], each("export %s func ->", names), names))
case("library-items", "wc_tests", lambda names: validate_adapter(
    ["  library", "  argument env = items", *each("  item %s: func f of main", names)], each("env %s func ->", names)))
case("component-world", "wc_tests", lambda names: row("component_world slot-1", program_input(
    one("import", names), module_of(each("my:p/face %s func ->", names)))), "text function")
