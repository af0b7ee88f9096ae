"""Random worlds with asynchronous functions, futures, streams and resources, each as WIT and as JSON, and main modules and
adapters that import the built-ins for them."""
import json
import random

from module_bytes import HEADER, name, number, section, vector

PLAIN = {"bool": "i32", "u8": "i32", "s16": "i32", "u32": "i32", "u64": "i64", "s64": "i64", "f32": "f32", "f64": "f64", "char": "i32"}
CODES = {"i32": 0x7f, "i64": 0x7e, "f32": 0x7d, "f64": 0x7c}
HOST, API = "my:demo/host@1.0.0", "my:demo/api@1.0.0"
# what both modules may import of the built-ins that are of no interface
ROOT = [("[waitable-set-wait]", "ii", "i"), ("[waitable-set-poll]", "ii", "i"), ("[waitable-set-new]", "", "i"),
        ("[error-context-new-utf8]", "ii", "i"), ("[error-context-new-utf16]", "ii", "i"),
        ("[error-context-debug-message-utf8]", "ii", ""), ("[error-context-debug-message-utf16]", "ii", ""),
        ("[error-context-drop]", "i", ""), ("[subtask-drop]", "i", ""), ("[backpressure-inc]", "", "")]
MAX_FLAT = 16


def joined(one, other):
    if one == other:
        return one
    return "i32" if {one, other} == {"i32", "f32"} else "i64"


class Types:
    """The types of an interface: a type is the name of a plain one, or a tuple of its kind and what it is made of."""

    def __init__(self, random, world):
        self.random, self.world, self.named = random, world, []

    def any(self, depth=3):
        """A random type."""
        kind = self.random.choice(["plain"] * 4 + ["string", "list", "option", "result", "tuple", "tuple", "stream", "future", "named"])
        if depth == 0 or kind == "plain":
            return self.random.choice(list(PLAIN))
        if kind == "string":
            return "string"
        if kind == "named":
            return self.random.choice(self.named) if self.named else "u32"
        count = self.random.choice([1, 2, 2, 3, 5]) if kind == "tuple" else 2 if kind == "result" else 1
        parts = [self.any(depth - 1) for _ in range(count)]
        if kind in ("result", "stream", "future"):
            parts = [part if self.random.random() < 0.7 else None for part in parts]
        # a stream of characters is none yet
        return (kind, *("u8" if kind == "stream" and part == "char" else part for part in parts))

    def define(self):
        """Gives the interface a type with a name."""
        kind, at = self.random.choice(["record", "variant", "enum", "flags"]), len(self.named)
        count = self.random.choice([1, 2, 3, 6] if kind != "flags" else [1, 8, 32])
        parts = [None if kind in ("enum", "flags") or kind == "variant" and self.random.random() < 0.3 else self.any(2) for _ in range(count)]
        self.named.append((kind, "t%d" % at, *parts))


def wit(ty):
    """A type where it is used, in WIT."""
    if isinstance(ty, str):
        return ty
    kind, *parts = ty
    if kind in ("record", "variant", "enum", "flags"):
        return parts[0]
    if kind == "result" and parts[1] is None:
        return "result" if parts[0] is None else "result<%s>" % wit(parts[0])
    shown = ["_" if part is None else wit(part) for part in parts]
    return kind if parts == [None] else "%s<%s>" % (kind, ", ".join(shown))


def definition(ty):
    """A type with a name, in WIT."""
    kind, named, *parts = ty
    if kind == "record":
        inside = ["p%d: %s" % (at, wit(part)) for at, part in enumerate(parts)]
    else:
        inside = ["p%d%s" % (at, "" if part is None else "(%s)" % wit(part)) for at, part in enumerate(parts)]
    return "  %s %s { %s }" % (kind, named, ", ".join(inside))


def flat(ty):
    """The core types that a value is flattened to."""
    if ty is None:
        return []
    if isinstance(ty, str):
        return ["i32", "i32"] if ty == "string" else [PLAIN[ty]]
    kind, *parts = ty
    if kind in ("record", "variant", "enum", "flags"):
        parts = parts[1:]
    if kind in ("tuple", "record"):
        return [core for part in parts for core in flat(part)]
    if kind == "list":
        return ["i32", "i32"]
    if kind in ("stream", "future"):
        return ["i32"]
    if kind == "flags":
        return ["i32"] * -(-len(parts) // 32)
    cases = []
    for part in parts:
        of = flat(part)
        both = [joined(*pair) for pair in zip(cases, of)]
        cases = both + cases[len(both):] + of[len(both):]
    return ["i32", *cases]


def passed(core, most):
    """The core types by which values are passed: a pointer where they are too many."""
    return core if len(core) <= most else ["i32"]


class World:
    """A world: its WIT, its JSON over that of another one, and the imports and exports of a main module."""

    def __init__(self, seed, base=None):
        self.random = random.Random(seed)
        self.resolve = base or {"worlds": [{"name": "command", "imports": {}, "exports": {}, "package": 0}],
                                "interfaces": [], "types": [], "packages": [{"name": "wasi:cli@0.2.6", "interfaces": {}, "worlds": {}}]}
        self.world = self.resolve["worlds"][-1]
        self.imports, self.exports, self.wit = [], [], ["package my:demo@1.0.0;"]
        self.package = len(self.resolve["packages"])
        self.resolve["packages"].append({"name": "my:demo@1.0.0", "interfaces": {}, "worlds": {}})
        self.ids = {}
        for of, into in (HOST, "imports"), (API, "exports"):
            self.interface(of, into)
        self.root()
        self.random.shuffle(self.imports)
        if self.random.random() < 0.5:
            self.random.shuffle(self.exports)

    def use(self, ty):
        """A type where it is used, in JSON."""
        if ty is None or isinstance(ty, str):
            return ty
        if ty not in self.ids:
            kind, *parts = ty
            if kind in ("tuple", "result", "option", "list", "stream", "future"):
                uses = [self.use(part) for part in parts]
                inside = {"tuple": {"types": uses}, "result": dict(zip(("ok", "err"), uses))}.get(kind, uses[0])
                self.add(ty, None, {kind: inside})
            else:
                self.add(ty, parts[0], {kind: self.inside(kind, parts[1:])})
        return self.ids[ty]

    def inside(self, kind, parts):
        typed = [{"name": "p%d" % at, "type": self.use(part)} for at, part in enumerate(parts)]
        if kind in ("record", "variant"):
            return {"fields" if kind == "record" else "cases": typed}
        return {"cases" if kind == "enum" else "flags": [{"name": it["name"]} for it in typed]}

    def add(self, key, named, kind):
        self.ids[key] = len(self.resolve["types"])
        owner = {"interface": len(self.resolve["interfaces"]) - 1} if named else None
        self.resolve["types"].append({"name": named, "kind": kind, "owner": owner})

    def interface(self, of, into):
        """Adds an interface that the world imports or exports, with random types, resources and functions."""
        short = of.partition("/")[2].partition("@")[0]
        self.functions, self.types, self.ids = {}, Types(self.random, self), {}
        made = {"name": short, "types": {}, "functions": self.functions, "package": self.package}
        index = len(self.resolve["interfaces"])
        self.resolve["interfaces"].append(made)
        self.resolve["packages"][self.package]["interfaces"][short] = index
        self.world[into]["interface-%d" % index] = {"interface": {"id": index}}
        self.wit.append("interface %s {" % short)
        for _ in range(self.random.randrange(4)):
            self.types.define()
        for ty in self.types.named:
            self.wit.append(definition(ty))
            made["types"][ty[1]] = self.use(ty)
        for at in range(self.random.randrange(3)):
            self.resource(of, made, "res%d" % at)
        for at in range(self.random.randrange(1, 7)):
            (self.imported if into == "imports" else self.exported)(of, "f%d" % at, self.types.any())
        self.wit.append("}")

    def resource(self, of, interface, named):
        self.wit.append("  resource %s { constructor(); }" % named)
        self.add(named, named, "resource")
        interface["types"][named] = self.ids[named]
        self.add(("own", named), None, {"handle": {"own": self.ids[named]}})
        constructor = "[constructor]" + named
        self.functions[constructor] = {"name": constructor, "kind": {"constructor": self.ids[named]}, "params": [],
                                       "result": self.ids[("own", named)]}
        if of == HOST:
            self.imports += [(of, constructor, [], ["i32"]), (of, "[resource-drop]" + named, ["i32"], [])]
            return
        self.exports.append((of + "#" + constructor, [], ["i32"]))
        if self.random.random() < 0.7:
            self.exports.append((of + "#[dtor]" + named, ["i32"], []))
        if self.random.random() < 0.7:
            self.imports.append(("[export]" + of, "[resource-new]" + named, ["i32"], ["i32"]))

    def function(self, into, named, kind, params, result):
        into[named] = {"name": named, "kind": kind, "result": self.use(result),
                       "params": [{"name": "a%d" % at, "type": self.use(ty)} for at, ty in enumerate(params)]}
        shown = "%s: %sfunc(%s)" % (named, "async " if "async" in kind else "", ", ".join("a%d: %s" % (at, wit(ty)) for at, ty in enumerate(params)))
        return shown + (";" if result is None else " -> %s;" % wit(result))

    def imported(self, of, named, ty):
        """A function that the world imports: of a parameter of the type, or of such a result. Its futures and streams carry no
        texts and lists: by these the Rust crate has options that the linkers have not (docs/PORTING.md)."""
        while any(has_text(carrier) for carrier in carriers(ty)):
            ty = self.types.any()
        params, result = self.random.choice([([ty], None), ([], ty), ([ty], "u32")])
        self.wit.append("  " + self.function(self.functions, named, "async-freestanding", params, result))
        core, results = [core for part in params for core in flat(part)], flat(result)
        if self.random.random() < 0.5:
            core = passed(core, MAX_FLAT)
            core, results = (core + ["i32"], []) if len(results) > 1 else (core, results)
            self.imports.append((of, named, core, results))
        else:
            core = passed(core, 4)
            self.imports.append((of, "[async-lower]" + named, core + ["i32"] * bool(results), ["i32"]))
        if params == [ty] and not isinstance(ty, str) and ty[0] in ("stream", "future"):
            self.transfers(of, named, ty)

    def exported(self, of, named, ty):
        """A function that the world exports, which returns the type by `task.return`."""
        params = [self.types.any() for _ in range(self.random.choice([0, 0, 1, 2]))]
        result = ty if self.random.random() < 0.9 else None
        self.wit.append("  " + self.function(self.functions, named, "async-freestanding", params, result))
        self.lift(of + "#" + named, params)
        self.imports.append(("[export]" + of, "[task-return]" + named, passed(flat(result), MAX_FLAT), []))
        if not (result is None or isinstance(result, str)) and result[0] in ("stream", "future"):
            self.transfers("[export]" + of, named, result, params)

    def lift(self, named, params):
        """Exports an asynchronous function of these parameters."""
        core = passed([core for part in params for core in flat(part)], MAX_FLAT)
        if self.random.random() < 0.7:
            self.exports.append(("[async-lift-stackful]" + named, core, []))
            return
        self.exports.append(("[async-lift]" + named, core, ["i32"]))
        self.exports.append(("[callback][async-lift]" + named, ["i32"] * 3, ["i32"]))

    def transfers(self, of, named, ty, params=()):
        """Built-ins for a function's last future or stream: after those of its parameters, and those that it carries."""
        kind, payload = ty
        at = "unit" if payload is None else str(sum(1 for part in [*params, payload] for _ in carriers(part)))
        words = ["i32"] * (3 if kind == "stream" else 2)
        for direction in "read", "write":
            head = self.random.choice(["", "[async-lower]"])
            self.imports.append((of, "%s[%s-%s-%s]%s" % (head, kind, direction, at, named), words, ["i32"]))
        self.imports.append((of, "[%s-new-%s]%s" % (kind, at, named), [], ["i64"]))

    def root(self):
        """Functions of the world itself, of plain types."""
        lines = ["world demo {", "  import host;", "  export api;"]
        types = Types(self.random, self)
        ty = types.any(2)
        item = {}
        lines.append("  export " + self.function(item, "root-f", "async-freestanding", [], ty))
        self.world["exports"]["root-f"] = {"function": item["root-f"]}
        self.lift("root-f", [])
        self.imports.append(("[export]$root", "[task-return]root-f", passed(flat(ty), MAX_FLAT), []))
        for named, params, results in ROOT:
            if self.random.random() < 0.4:
                self.imports.append(("$root", named, ["i32"] * len(params), ["i32"] * len(results)))
        self.wit += [*lines, "}"]

    def json(self):
        return json.dumps(self.resolve)


def carriers(ty):
    """The futures and streams in a type."""
    if ty is None or isinstance(ty, str):
        return
    kind, *parts = ty
    for part in parts[1:] if kind in ("record", "variant", "enum", "flags") else parts:
        yield from carriers(part)
    if kind in ("stream", "future"):
        yield ty


def has_text(ty):
    """Whether a text or a list is in a type."""
    return ty == "string" or isinstance(ty, tuple) and (ty[0] == "list" or any(has_text(part) for part in ty[1:]))


def module_of(imports, exports, memory, custom=b""):
    """A module with these imports, exported functions that call all of them and then trap, and a memory that is exported or imported."""
    types, codes = [], b"\0"

    def type_of(params, results):
        ty = b"\x60" + b"".join(vector([bytes([CODES[core]]) for core in of]) for of in (params, results))
        if ty not in types:
            types.append(ty)
        return number(types.index(ty))

    constants = {"i32": b"\x41\0", "i64": b"\x42\0", "f32": b"\x43" + bytes(4), "f64": b"\x44" + bytes(8)}
    imported = []
    for at, (of, field, params, results) in enumerate(imports):
        imported.append(name(of) + name(field) + b"\0" + type_of(params, results))
        codes += b"".join(constants[core] for core in params) + b"\x10" + number(at) + b"\x1a" * len(results)
    codes += b"\0\x0b"
    functions = [type_of(params, results) for _, params, results in exports]
    exported = [name(field) + b"\0" + number(len(imports) + at) for at, (field, _, _) in enumerate(exports)]
    if memory == "exported":
        exported.append(name("memory") + b"\x02\0")
    else:
        imported.append(name("env") + name("memory") + b"\x02\0\0")
    parts = [section(1, vector(types)), section(2, vector(imported)), section(3, vector(functions))]
    parts += [section(5, vector([b"\0\x01"]))] if memory == "exported" else []
    parts += [section(7, vector(exported)), section(10, vector([number(len(codes)) + codes] * len(exports)))]
    return HEADER + b"".join(parts) + custom
