"""The cases of slow-inputs.py: shapes of worlds, modules, keys and messages. Each is a function that writes the input of so
many parts, and gives the program's arguments. HOSTILE are those that an attacker would choose, each of wcplan with `--json`
and with `--why all --json`, too.
"""
import math
import random

import colliding
from slow_shapes import (ADAPTER, FOLDER, MAIN, OUT, calls, core, every, function, imported, interface, message, name, number,
                         plan, resolved, row, section, signature, track, typed, vector)

# how deep JSON may be nested
DEPTH = 100
CASES = {}
# what hostile ones are called on the page
HOSTILE = {}
# the other forms of a hostile case of wcplan: the options, and how it is called
FORMS = {"json": (["--json"], "the same, `--json`"), "why-json": (["--why", "all", "--json"], "the same, `--why all --json`")}


def case(title, program, factor=1.0, hostile=None):
    """Adds a case, which has so many times the parts that are asked for; of a hostile one, how it is called."""

    def add(make):
        CASES[title] = program, factor, make
        if hostile:
            HOSTILE[title] = hostile
        if hostile and program == "wcplan" and "json" not in title:
            for form, (options, text) in FORMS.items():
                case("%s %s" % (title, form), program, factor, text)(lambda count, options=options: [*make(count), *options])
        return make

    return add


# Keys of interfaces, and how often an interface is imported


def plain_keys(count, imports):
    core(MAIN, imports)
    functions = [function("f%d" % at) for at in range(count)]
    return plan(resolved({"k%d" % at: {"interface": {"id": 0}} for at in range(count)}, {}, [interface("i", functions)]))


# One interface of n functions under n keys
case("plain-keys", "wcplan")(lambda count: plain_keys(count, ()))


@case("plain-keys-imported", "wcplan", factor=0.25, hostile="one interface of n functions under n keys, all imported")
def _(count):
    return plain_keys(count, [("k0", "f%d" % at, 0) for at in range(count)])


@case("versions-params", "wcplan", hostile="one function of n parameters, imported by n versions of a track")
def _(count):
    core(MAIN, [(track(at), "f", 0) for at in range(count)], types=[signature(b"\x7f")], memory=True)
    return plan(resolved(imported(), {}, [interface("i", [function("f", ["u8"] * count)])]))


@case("versions-params-ids", "wcplan")
def _(count):
    """The same, and each parameter has a type of its own."""
    core(MAIN, [(track(at), "f", 0) for at in range(count)], types=[signature(b"\x7f")], memory=True)
    types = [typed({"type": "u8"}, "t%d" % at, {"interface": 0}) for at in range(count)]
    held = interface("i", [function("f", range(count))], {"t%d" % at: at for at in range(count)})
    return plan(resolved(imported(), {}, [held], types))


@case("versions-params-empty", "wcplan")
def _(count):
    """The same, and each parameter is an empty tuple, which has no core type."""
    core(MAIN, [(track(at), "f", 0) for at in range(count)], memory=True)
    return plan(resolved(imported(), {}, [interface("i", [function("f", [0] * count)])], [typed({"tuple": {"types": []}})]))


@case("task-return", "wcplan", factor=0.5, hostile="`task.return` of a function of n parameters, by n versions of a track")
def _(count):
    imports = [("[export]" + track(at), "[task-return]f", 0) for at in range(count)]
    core(MAIN, imports, [("my:p/i@1.0.0#f", count)], [signature(), signature(b"\x7f")], [1], memory=True)
    return plan(resolved({}, imported(), [interface("i", [function("f", ["u8"] * count)])]))


@case("long-version", "wcplan")
def _(count):
    """n functions of an interface whose version has build metadata of 10 n letters, which each line of the plan has."""
    core(MAIN, [("my:p/i@1.0.1", "f%d" % at, 0) for at in range(count)])
    functions = [function("f%d" % at) for at in range(count)]
    return plan(resolved(imported(), {}, [interface("i", functions)], package="my:p@1.0.0+" + "b" * (10 * count)))


@case("same-id", "wcplan")
def _(count):
    """n exported interfaces of one id, each with a function of its own, which the main module exports."""
    core(MAIN, (), [("my:p/i#f%d" % at, at) for at in range(count)], defined=[0] * count)
    held = [interface("i", [function("f%d" % at)]) for at in range(count)]
    document = resolved({}, every(count), held, package="my:p")
    document["packages"][0]["interfaces"] = {"i": 0}
    return plan(document)


# Adapters


def adapters(count, imports, document):
    """A sixteenth as many adapters of these imports, each with a function that the main module imports."""
    many = max(count // 16, 1)
    core(ADAPTER, imports, [("f", len(imports))], defined=[0], codes=[calls(len(imports))])
    core(MAIN, [("a%d" % at, "f", 0) for at in range(many)])
    return plan(document, *("--adapt=a%d=%s" % (at, ADAPTER) for at in range(many)))


def root_imports(count):
    names = ["g%d" % at for at in range(count)]
    return [("$root", text, 0) for text in names], {text: {"function": function(text)} for text in names}


@case("adapters-canonical", "wcplan")
def _(count):
    """n/16 adapters of 60 imports in the standard scheme, over n interfaces: of the last."""
    held = [interface("i%d" % at) for at in range(count - 1)]
    held.append(interface("i%d" % (count - 1), [function("f%d" % at) for at in range(60)]))
    imports = [("cm32p2|my:q/i%d" % (count - 1), "f%d" % at, 0) for at in range(60)]
    return adapters(count, imports, resolved(every(count), {}, held, package="my:q"))


@case("adapters-index", "wcplan")
def _(count):
    """n/16 adapters of 65 imports, so many that the interfaces are indexed, over n interfaces."""
    imports, items = root_imports(65)
    held = [interface("i%d" % at) for at in range(count)]
    return adapters(count, imports, resolved({**items, **every(count)}, {}, held, package="my:q"))


@case("adapters-types", "wcplan", factor=4)
def _(count):
    """n/16 adapters of 8 imports, and n types that the world imports."""
    imports, items = root_imports(8)
    types = [typed({"type": "u8"}, "t%d" % at, {"world": 0}) for at in range(count)]
    return adapters(count, imports, resolved({**items, **{"t%d" % at: {"type": at} for at in range(count)}}, {}, (), types))


@case("adapter-type", "wcplan", hostile="one type of n parameters, n imports of an adapter's functions")
def _(count):
    wide, names = [signature(b"\x7f" * count)], ["f%d" % at for at in range(count)]
    core(MAIN, [("a", text, 0) for text in names], types=wide)
    core(ADAPTER, (), [(text, at) for at, text in enumerate(names)], wide, [0] * count)
    return plan(resolved(), "--adapt=a=" + ADAPTER)


@case("adapters-params", "wcplan")
def _(count):
    """n/16 adapters that import one function of the world, which has n parameters."""
    document = resolved({"g": {"function": function("g", ["u8"] * count)}})
    many = max(count // 16, 1)
    core(ADAPTER, [("$root", "g", 1)], [("f", 1)], [signature(), signature(b"\x7f")], [0])
    core(MAIN, [("a%d" % at, "f", 0) for at in range(many)], memory=True)
    return plan(document, *("--adapt=a%d=%s" % (at, ADAPTER) for at in range(many)))


# Why functions are imported


def ways(count, form):
    """An adapter of n functions, of which the first is exported, and each calls the next one and its own import."""
    names = ["g%d" % at for at in range(count)]
    codes = [b"\x10" + number(at) + (b"\x10" + number(count + at + 1) if at + 1 < count else b"") for at in range(count)]
    core(ADAPTER, [("my:p/i@1.0.0", text, 0) for text in names], [("f", count)], defined=[0] * count, codes=codes)
    core(MAIN, [("a", "f", 0)])
    held = interface("i", [function(text) for text in names])
    return [*plan(resolved(imported(), {}, [held]), "--adapt=a=" + ADAPTER), "--why", "all", *form]


# Why each of n functions is imported: the way to each is one longer than to the one before it, and is printed
case("why-lines", "wcplan")(lambda count: ways(count, []))


@case("why-json", "wcplan", factor=0.25, hostile="n imports of an adapter, each by a path that is an item longer: `--why all --json`")
def _(count):
    return ways(count, ["--json"])


# The same, as a graph
case("why-graph", "wcplan")(lambda count: ways(count, ["--dot"]))


@case("why-wide", "wcplan")
def _(count):
    """The same, where the main module imports all of the n functions itself."""
    names = ["g%d" % at for at in range(count)]
    core(MAIN, [("my:p/i@1.0.0", text, 0) for text in names])
    return [*plan(resolved(imported(), {}, [interface("i", [function(text) for text in names])])), "--why", "all"]


# Keys that are given


def world_functions(count):
    names = ["function-number-%07d" % at for at in range(count)]
    return names, {text: {"function": function(text)} for text in names}


def exporting(names):
    return core(MAIN, (), [(text, at) for at, text in enumerate(names)], defined=[0] * len(names))


@case("given-keys", "wcplan")
def _(count):
    """n keys that the command gives, the last first."""
    names, items = world_functions(count)
    exporting(names)
    return plan(resolved({}, items), *("--export=" + text for text in reversed(names)))


def key_adapters(names):
    """An adapter for each key, which exports its function."""
    return [core(str(FOLDER / ("a%d.wasm" % at)), (), [(text, 0)], defined=[0]) for at, text in enumerate(names)]


@case("given-to-adapters", "wcplan", factor=0.5)
def _(count):
    """n adapters, each of which has to export one key of n: the last adapter the first."""
    names, items = world_functions(count)
    core(MAIN)
    key_adapters(names)
    options = ["--adapt=a%d=%s" % (at, FOLDER / ("a%d.wasm" % at)) for at in range(count)]
    options += ["--adapter-export=a%d=%s" % (at, text) for at, text in reversed(list(enumerate(names)))]
    return plan(resolved({}, items), *options)


@case("message-keys", "message")
def _(count):
    """n keys that a message gives, the last first."""
    names, items = world_functions(count)
    return message(resolved({}, items), exporting(names), exports=names[::-1])


@case("message-adapters", "message", factor=0.5)
def _(count):
    """n adapters of a message, each of which has to export one key of n."""
    names, items = world_functions(count)
    modules = key_adapters(names)
    held = [{"name": "a%d" % at, "exports": [text], "bytes": modules[at].hex()} for at, text in enumerate(names)]
    return message(resolved({}, items), core(MAIN), adapters=held)


@case("message-indices", "message")
def _(count):
    """n exported interfaces that a message gives by their indices, the last first."""
    held = [interface("i%d" % at) for at in range(count)]
    keys = ["interface-%d" % at for at in reversed(range(count))]
    return message(resolved({}, every(count), held), core(MAIN), exports=keys)


@case("message-options", "message")
def _(count):
    """The options of n functions, all of which are imported."""
    names = ["f%d" % at for at in range(count)]
    module = core(MAIN, [("my:p/i@1.0.0", text, 0) for text in names], memory=True)
    options = [{"name": text, "memory": True} for text in reversed(names)]
    document = resolved(imported(), {}, [interface("i", [function(text) for text in names])])
    return message(document, module, options=options)


def library(module, arguments):
    information = {"arguments": arguments, "instantiate_after_shims": False}
    return {"exports": [], "bytes": module.hex(), "library_info": information}


@case("libraries", "message")
def _(count):
    """n libraries, each of which gets the exports of the main module, and imports one."""
    module = core(MAIN, (), [("f", 0)], defined=[0])
    lib = core(ADAPTER, [("env", "f", 0)], [("g", 1)], defined=[0], codes=[calls(1)])
    argument = {"name": "env", "instance": {"kind": "module", "which": {"kind": "main"}}}
    held = [{"name": "l%d" % at, **library(lib, [argument])} for at in range(count)]
    return message(resolved(), module, adapters=held)


@case("library-arguments", "message")
def _(count):
    """A library that gets n arguments, and imports a function of each."""
    names = ["m%d" % at for at in range(count)]
    module = core(MAIN, (), [("f", 0)], defined=[0])
    lib = core(ADAPTER, [(text, "f", 0) for text in names], [("g", count)], defined=[0], codes=[calls(count)])
    held = [{"name": text, "instance": {"kind": "module", "which": {"kind": "main"}}} for text in reversed(names)]
    return message(resolved(), module, adapters=[{"name": "l", **library(lib, held)}])


@case("library-items", "message")
def _(count):
    """A library that gets n items of the main module in one argument, and imports each."""
    names = ["f%d" % at for at in range(count)]
    module = core(MAIN, (), [(text, at) for at, text in enumerate(names)], defined=[0] * count)
    lib = core(ADAPTER, [("env", text, 0) for text in names], [("g", count)], defined=[0], codes=[calls(count)])
    items = [{"alias": text, "kind": "func", "which": {"kind": "main"}, "name": text} for text in reversed(names)]
    argument = {"name": "env", "instance": {"kind": "items", "items": items}}
    return message(resolved(), module, adapters=[{"name": "l", **library(lib, [argument])}])


# Types


def chain_users(count):
    """An interface with a chain of types, and as many that use its end; and all their types."""
    kinds = [{"type": "u8"}, *({"tuple": {"types": [at]}} for at in range(count - 1))]
    types = [typed(kind, "t%d" % at, {"interface": 0}) for at, kind in enumerate(kinds)]
    types += [typed({"type": count - 1}, "u", {"interface": at + 1}) for at in range(count)]
    held = [interface("x", (), {"t%d" % at: at for at in range(count)})]
    return [*held, *(interface("i%d" % at, (), {"u": count + at}) for at in range(count))], types


@case("export-types", "wcplan")
def _(count):
    """n exported interfaces, each of which uses the end of one chain of n types of an imported one."""
    core(MAIN)
    return plan(resolved(imported(), every(count, lambda at: imported(at + 1)), *chain_users(count)))


@case("export-own-types", "wcplan")
def _(count):
    """The same, and the chain is of no interface: none of its types becomes live."""
    kinds = [{"type": "u8"}, *({"tuple": {"types": [at]}} for at in range(count - 1))]
    types = [typed(kind) for kind in kinds]
    types += [typed({"type": count - 1}, "u", {"interface": at}) for at in range(count)]
    core(MAIN)
    return plan(resolved({}, every(count), [interface("i%d" % at, (), {"u": count + at}) for at in range(count)], types))


@case("export-used-types", "wcplan")
def _(count):
    """The same, and the chain is of another exported interface, which all of them use."""
    core(MAIN)
    return plan(resolved({}, every(count + 1), *chain_users(count)))


@case("export-mixed-types", "wcplan")
def _(count):
    """The same, and the chain is of no interface, and begins with types of two exported interfaces, of which neither uses
    the other one, and all others use both."""
    types = [typed({"type": "u8"}, "t", {"interface": at}) for at in range(2)]
    types += [typed({"tuple": {"types": [0, 1]}}), *(typed({"tuple": {"types": [at + 2]}}) for at in range(count - 1))]
    held = [interface("x%d" % at, (), {"t": at}) for at in range(2)]
    for at in range(count):
        own = {text: len(types) + index for index, text in enumerate("abu")}
        types += [typed({"type": used}, text, {"interface": at + 2}) for text, used in zip("abu", (0, 1, count + 1))]
        held.append(interface("i%d" % at, (), own))
    core(MAIN)
    return plan(resolved({}, every(count + 2), held, types))


@case("export-parameters", "wcplan")
def _(count):
    """n exported interfaces, each with a function of one parameter, of the end of one chain of n types of no interface."""
    kinds = [{"type": "u8"}, *({"tuple": {"types": [at]}} for at in range(count - 1))]
    held = [interface("i%d" % at, [function("f", [count - 1])]) for at in range(count)]
    core(MAIN, (), [("my:p/i%d@1.0.0#f" % at, at) for at in range(count)], [signature(b"\x7f")], [0] * count)
    return plan(resolved({}, every(count), held, [typed(kind) for kind in kinds]))


def users(count, used):
    """Exported interfaces, which use those before them of these numbers."""
    types, held = [], []
    for at in range(count):
        own = {"t": len(types)}
        types.append(typed({"type": "u8"}, "t", {"interface": at}))
        for other in used(at):
            own["u%d" % other] = len(types)
            types.append(typed({"type": held[other]["types"]["t"]}, "u%d" % other, {"interface": at}))
        held.append(interface("i%d" % at, (), own))
    core(MAIN)
    return plan(resolved({}, every(count), held, types))


def before(at):
    return [at - 1] if at else []


@case("used-chain", "wcplan", factor=0.5, hostile="n exported interfaces, each of which uses the one before")
def _(count):
    return users(count, before)


# n exported interfaces, each of which uses the first one: the record has a list of one interface for each
case("used-first-json", "wcplan")(lambda count: [*users(count, lambda at: [0] if at else []), "--json"])


@case("used-joined", "wcplan", factor=16)
def _(count):
    """Three times the root of n exported interfaces: a chain, those that use its end, and those that use each of these. The
    chain is in the set of each of the last ones, and is put there once for each that it uses."""
    root = math.isqrt(count)

    def used(at):
        if at < root:
            return before(at)
        return [root - 1] if at < 2 * root else range(root, 2 * root)

    return users(3 * root, used)


def used_by_last(ids, largest):
    """Exported interfaces, of which those with these ids are used by the last one."""
    types = [typed({"type": "u8"}, "t", {"interface": at}) for at in range(largest)]
    types += [typed({"type": at}, "u%d" % at, {"interface": largest}) for at in ids]
    held = [interface("i%d" % at, (), {"t": at}) for at in range(largest)]
    held.append(interface("last", (), {"u%d" % at: largest + index for index, at in enumerate(ids)}))
    core(MAIN)
    return plan(resolved({}, every(largest + 1), held, types))


def chosen_ids(count):
    """Ids that begin in the first half of the groups of a table of so many keys, under the seed that is known; and how many
    ids are looked through for them."""
    groups = 1
    while 2 * groups * colliding.GROUP_LOAD <= count:
        groups *= 2
    found, at = [], 0
    while len(found) < colliding.GROUP_LOAD * groups - 2:
        state = colliding.after_number(colliding.SEED, at, 4)
        if (state ^ state >> 32) & groups - 1 < max(groups // 2, 1):
            found.append(at)
        at += 1
    return found, at


@case("live-chosen", "wcplan", factor=32)
def _(count):
    """Types that are chosen for a set of live types under the seed that is known, as parameters of one function."""
    ids, largest = chosen_ids(count)
    core(MAIN, [("my:p/i@1.0.0", "f", 0)], types=[signature(b"\x7f")], memory=True)
    return plan(resolved(imported(), {}, [interface("i", [function("f", ids)])], [typed({"type": "u8"})] * largest))


# The same of a set of interfaces that one interface uses
case("used-chosen", "wcplan", factor=32)(lambda count: used_by_last(*chosen_ids(count)))


def futures(count, types, params):
    imports = [("my:p/i@1.0.0", "[future-new-%d]f" % at, 0) for at in range(count)]
    core(MAIN, imports, types=[signature(b"", b"\x7e")], memory=True)
    return plan(resolved(imported(), {}, [interface("i", [function("f", params)])], types))


# A function of n futures, of which each is asked for by its number
case("futures-params", "wcplan", factor=4)(lambda count: futures(count, [typed({"future": None})] * count, range(count)))


@case("futures-chain", "wcplan", factor=4)
def _(count):
    """The same of one parameter, whose type has a future and a type that has one, and so on."""
    pairs = [typed({"tuple": {"types": [0, at]}}) for at in range(count)]
    return futures(count, [typed({"future": None}), *pairs], [count])


@case("futures-tuple", "wcplan", factor=4)
def _(count):
    """The same of one parameter, a tuple of n futures."""
    return futures(count, [typed({"future": None})] * count + [typed({"tuple": {"types": list(range(count))}})], [count])


# Texts


@case("futures-world", "wcplan", factor=4)
def _(count):
    """A function of the world itself of n futures, of which each is asked for by its number."""
    core(MAIN, [("$root", "[future-new-%d]f" % at, 0) for at in range(count)], types=[signature(b"", b"\x7e")], memory=True)
    return plan(resolved({"f": {"function": function("f", list(range(count)))}}, {}, [], [typed({"future": None})] * count))


@case("json-nested", "wcplan", factor=4)
def _(count):
    """n members at each level of JSON that is nested to its bound, and that no world names."""
    nested, many = {}, max(count // 16, 1)
    for _ in range(DEPTH):
        nested = {**{"m%d" % at: at for at in range(many)}, "last": nested}
    core(MAIN)
    return plan({**resolved(), "more": nested})


@case("json-members", "wcplan")
def _(count):
    """Worlds after n members that are of no account."""
    core(MAIN)
    return plan({**{"m%d" % at: at for at in range(count)}, **resolved()})


def mixed(count):
    """Every second number, in an order that chance makes."""
    order = list(range(0, 2 * count, 2))
    random.Random(count).shuffle(order)
    return order


# Every second number, put into a set of ranges one after another
case("ranges-ascending", "wc_tests", factor=8)(lambda count: row("range_set", ["insert %d" % at for at in range(0, 2 * count, 2)]))
# The same, the last first: each is put before all others
case("ranges-descending", "wc_tests", factor=8)(lambda count: row("range_set", ["insert %d" % at for at in range(0, 2 * count, 2)[::-1]]))
# The same, in an order that chance makes
case("ranges-mixed", "wc_tests", factor=8)(lambda count: row("range_set", ["insert %d" % at for at in mixed(count)]))
# The same, all at once
case("ranges-extended", "wc_tests", factor=8)(lambda count: row("range_set", ["extend " + " ".join(map(str, mixed(count)))]))


# Why imports of an adapter stay


def calling(imports, functions, named=False):
    """Writes an adapter that imports so many functions, and has so many that do nothing; the exported one after them calls
    each of all these. If they are to be named, all have names."""
    codes = [b""] * functions + [calls(imports + functions)]
    names = [("env", "import-%d" % at, 0) for at in range(imports)]
    core(ADAPTER, names, [("f", imports + functions)], defined=[0] * (functions + 1), codes=codes)
    if named:
        called = vector([number(at) + name("function-%d" % at) for at in range(imports + functions + 1)])
        with open(ADAPTER, "ab") as file:
            file.write(section(0, name("name") + section(1, called)))


@case("asked-imports", "wcwhy", hostile="`wcwhy` with n `--import` over n imports")
def _(count):
    calling(count, 0)
    return [ADAPTER, *("--import=env=import-%d" % at for at in reversed(range(count))), "f"]


@case("asked-imports-dot", "wcwhy", hostile="the same, `--dot`")
def _(count):
    calling(count, 0)
    return [ADAPTER, "--dot", *("--import=env=import-%d" % at for at in reversed(range(count))), "f"]


@case("named-functions", "wcwhy", factor=100_000 / 2048, hostile="`wcwhy` of one import and n named functions")
def _(count):
    calling(1, count - 1, named=True)
    return [ADAPTER, "--import=env=import-0", "f"]


# Modules that are trimmed


@case("trim-type", "wctrim")
def _(count):
    """n functions of one type of n parameters, of which four are exported."""
    core(MAIN, (), [("f%d" % at, at) for at in range(4)], [signature(b"\x7f" * count)], [0] * count)
    return ["trim", MAIN, OUT, *("f%d" % at for at in range(4))]


# 48 bytes of operators that name no item
PASSED = b"\x41\x00\x1a" * 16


@case("trim-calls-imports", "wctrim", 4)
def _(count):
    """One function that calls each of n imported ones, with 48 bytes that name no item before each call."""
    code = b"".join(PASSED + b"\x10" + number(at) for at in range(count))
    core(MAIN, [("env", "i%d" % at, 0) for at in range(count)], [("a", count)], defined=[0], codes=[code])
    return ["trim", MAIN, OUT, "a"]


@case("trim-chain-imports", "wctrim", 4)
def _(count):
    """n functions, each of which calls the next one and an import of its own, after 48 bytes that name no item each."""
    codes = [b"".join(PASSED + b"\x10" + number(to) for to in (count + min(at + 1, count - 1), at)) for at in range(count)]
    core(MAIN, [("env", "i%d" % at, 0) for at in range(count)], [("a", count)], defined=[0] * count, codes=codes)
    return ["trim", MAIN, OUT, "a"]
