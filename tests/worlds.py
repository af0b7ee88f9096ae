"""Worlds and encoders that are written as lines (docs/ROWS.md, "Worlds"), as the JSON of messages."""
import json

from row_format import BadRow
from words import Words

BYTES_IN_LINE = 4096
PRIMITIVES = "bool u8 u16 u32 u64 s8 s16 s32 s64 f32 f64 char string error-context".split()
KINDS_OF_ITEMS = "func", "table", "memory", "global"


class NoMessage(BadRow):
    """What lines describe can't be written as a message."""


class Encoder:
    """What lines describe: the parts of worlds, and of an encoder."""

    def __init__(self):
        self.resolve = {"worlds": [], "interfaces": [], "types": [], "packages": []}
        self.world, self.exports, self.adapters, self.flags = 0, [], [], {}
        self.module, self.open = b"", None

    def adapter(self, name):
        """The adapter or the library of a name."""
        for found in self.adapters:
            if found["name"] == name:
                return found
        raise BadRow("no such adapter", name)

    def message(self, main, adapters=None):
        """The message, and the bytes of the modules after those of the main one: of these adapters, or of all."""
        adapters = self.adapters if adapters is None else adapters
        described = []
        for adapter in adapters:
            members = {"name": adapter["name"], "length": len(adapter["wasm"]), "exports": adapter["exports"]}
            if adapter["library"] is not None:
                members["library_info"] = adapter["library"]
            described.append(members)
        message = {"resolve": self.resolve, "world": self.world, "length": len(main), "exports": self.exports}
        return {**message, "adapters": described, **self.flags}, main + b"".join(it["wasm"] for it in adapters)


def lines_of_bytes(word, data):
    """Bytes in lines after a word."""
    return ["%s %s" % (word, data[at:at + BYTES_IN_LINE].hex()) for at in range(0, len(data), BYTES_IN_LINE)]


def program_input(lines, main):
    """The lines of input that say to wc_tests what lines of a world do, with this main module."""
    encoder = encoder_of(lines)
    made = [json.dumps(encoder.message(main)[0], ensure_ascii=False, separators=(",", ":")), *lines_of_bytes("module", main)]
    for adapter in encoder.adapters:
        made += lines_of_bytes("adapter " + adapter["name"], adapter["wasm"])
    return made


def wit_type(words, count):
    """A type, in a line before which there are `count` types."""
    word = words.peek()
    found = words.take_id("t")
    if found is not None:
        return found
    if word in PRIMITIVES:
        return words.name()
    if word in ("prev", "next") and count + (word == "next") > 0:
        words.name()
        return count - 1 if word == "prev" else count + 1
    raise words.bad("a type is missing")


def payload(words, count):
    """A type, or none."""
    return None if words.is_done() or words.take("_") else wit_type(words, count)


def named_types(words, count):
    """Names with types, up to `)` or the end."""

    def named():
        name = words.name()
        words.expect(":")
        return {"name": name, "type": wit_type(words, count)}

    return words.until_end(named, ")")


def cases(words, count):
    """Names, each with a type or without."""

    def case():
        name = words.name()
        return {"name": name, "type": wit_type(words, count) if words.take(":") else None}

    return words.until_end(case)


def type_kind(words, count):
    """The kind of a type."""
    kind = words.name()
    if kind == "record":
        return {kind: {"fields": named_types(words, count)}}
    if kind == "variant":
        return {kind: {"cases": cases(words, count)}}
    if kind == "tuple":
        return {kind: {"types": words.until_end(lambda: wit_type(words, count))}}
    if kind in ("flags", "enum"):
        return {kind: {"flags" if kind == "flags" else "cases": words.until_end(lambda: {"name": words.name()})}}
    if kind in ("option", "list"):
        return {kind: wit_type(words, count)}
    if kind == "alias":
        return {"type": wit_type(words, count)}
    if kind == "result":
        found = payload(words, count)
        return {kind: {"ok": found, "err": payload(words, count)}}
    if kind in ("future", "stream"):
        return {kind: payload(words, count)}
    if kind in ("own", "borrow"):
        return {"handle": {kind: words.id("t")}}
    if kind == "resource":
        return kind
    raise words.bad("no kind of type")


def function_under(words, name, count):
    """A function that is listed under a name."""
    if words.take("named"):
        name = words.name()
    is_async = words.take("async")
    of_resource = words.take("method", "static", "constructor")
    kind = ("async-" if is_async and of_resource != "constructor" else "") + (of_resource or "freestanding")
    if of_resource:
        kind = {kind: words.id("t")}
    words.expect("(")
    params = named_types(words, count)
    words.expect(")")
    return {"name": name, "kind": kind, "params": params, "result": wit_type(words, count) if words.take("->") else None}


def world_key(words):
    """A key: the id of an interface, or a name."""
    found = words.take_id("i")
    return words.name() if found is None else found


def key_text(key):
    """The text of a key in a message."""
    return key if isinstance(key, str) else "interface-%d" % key


def world_item(words, name, count):
    """An item of a world."""
    kind = words.expect("interface", "type", "func")
    if kind == "func":
        return {"function": function_under(words, name, count)}
    if kind == "type":
        return {"type": {"id": words.id("t")}}
    item = {"id": words.id("i")}
    if words.take("external"):
        item["external_id"] = words.name()
    return {"interface": item}


def check_key(words, key, item):
    """That JSON tells the key from others: an id is that of its own item, and no name is spelled so."""
    own = item.get("interface", {}).get("id")
    is_own = own is not None and key_text(key) == "interface-%d" % own
    if is_own == isinstance(key, str):
        raise NoMessage("a key that no message has", words.line)


def put(entries, key, value, words):
    """Adds a member that was not there."""
    if key in entries:
        raise words.bad("a key that is there before")
    entries[key] = value


def pass_index(words, letter, count):
    """Passes the id in a line, if there is one. It has to be the next index of its list."""
    if words.take_id(letter) not in (None, count):
        raise words.bad("the id of another index")


def package_name(words):
    """`NAMESPACE:NAME` or `NAMESPACE:NAME@VERSION`; the parts may be in quotes."""
    word = words.peek()
    if word is not None and ":" in word:
        return words.name()
    namespace = words.name()
    words.expect(":")
    name = words.name()
    version = words.name() if (words.peek() or "").startswith("@") else ""
    if ":" in namespace or "@" in name:
        raise NoMessage("a package's name that no message has", words.line)
    return "%s:%s%s" % (namespace, name, version)


def type_line(words, encoder):
    """`type [ID] [NAME] [in OWNER] = KIND`, after its first word."""
    types, name, owner = encoder.resolve["types"], None, None
    pass_index(words, "t", len(types))
    if words.peek() not in ("in", "="):
        name = words.name()
    if words.take("in"):
        found = words.take_id("w")
        owner = {"world": found} if found is not None else {"interface": words.id("i")}
    words.expect("=")
    types.append({"name": name, "kind": type_kind(words, len(types)), "owner": owner})


def repeat_line(words, encoder):
    """`repeat N type ..`, after its first word."""
    count = words.number()
    words.expect("type")
    at = words.at
    for _ in range(count):
        words.at = at
        type_line(words, encoder)


def interface_line(words, encoder):
    """`interface [ID] [NAME] [of PACKAGE] [clones ID]`, after its first word."""
    interfaces = encoder.resolve["interfaces"]
    pass_index(words, "i", len(interfaces))
    name = None if words.is_done() or words.peek() in ("of", "clones") else words.name()
    package = words.id("p") if words.take("of") else None
    clone_of = words.id("i") if words.take("clones") else None
    interfaces.append({"name": name, "types": {}, "functions": {}, "package": package, "clone_of": clone_of})
    encoder.open = interfaces[-1], interface_member


def interface_member(words, interface, count):
    """`type NAME ID`, or `func NAME: ..`."""
    if words.take("type"):
        name = words.name()
        words.take(":")
        return put(interface["types"], name, words.id("t"), words)
    words.expect("func")
    name = words.name()
    words.expect(":")
    return put(interface["functions"], name, function_under(words, name, count), words)


def package_line(words, encoder):
    """`package [ID] NAME`, after its first word."""
    packages = encoder.resolve["packages"]
    pass_index(words, "p", len(packages))
    packages.append({"name": package_name(words), "interfaces": {}, "worlds": {}})
    encoder.open = packages[-1], package_member


def package_member(words, package, _count):
    """`interface NAME ID`."""
    words.expect("interface")
    name = words.name()
    put(package["interfaces"], name, words.id("i"), words)


def world_line(words, encoder):
    """`world [ID] NAME`, after its first word."""
    worlds = encoder.resolve["worlds"]
    pass_index(words, "w", len(worlds))
    worlds.append({"name": words.name(), "imports": {}, "exports": {}, "package": None})
    encoder.open = worlds[-1], world_member


def world_member(words, world, count):
    """`import KEY: ITEM` or `export KEY: ITEM`."""
    entries = world[words.expect("import", "export") + "s"]
    key = world_key(words)
    words.expect(":")
    item = world_item(words, key if isinstance(key, str) else "", count)
    check_key(words, key, item)
    put(entries, key_text(key), item, words)


def keys(words, before):
    """Keys, up to the end, after those of lines before."""
    found = before + [key_text(it) for it in words.until_end(lambda: world_key(words))]
    if len(set(found)) < len(found):
        raise words.bad("a key that is there before")
    return found


def module_line(words, encoder):
    """`module BYTES`, after its first word."""
    encoder.module = words.bytes()
    encoder.open = encoder, module_member


def module_member(words, encoder, _count):
    """`bytes BYTES`."""
    words.expect("bytes")
    encoder.module += words.bytes()


def adapter_line(words, encoder):
    """`adapter NAME BYTES`, after its first word."""
    name = words.name()
    if any(it["name"] == name for it in encoder.adapters):
        raise words.bad("a key that is there before")
    encoder.adapters.append({"name": name, "wasm": words.bytes(), "exports": [], "library": None})
    encoder.open = encoder.adapters[-1], adapter_member


def which(words):
    """`main`, or `adapter NAME`."""
    if words.expect("main", "adapter") == "main":
        return {"kind": "main"}
    return {"kind": "adapter", "name": words.name()}


def adapter_member(words, adapter, _count):
    """`bytes BYTES`, `exports KEY ..`, `library [after-shims]`, `argument ..` or `item ..`."""
    kind = words.expect("bytes", "exports", "library", "argument", "item")
    if kind == "bytes":
        adapter["wasm"] += words.bytes()
    elif kind == "exports":
        adapter["exports"] = keys(words, adapter["exports"])
    elif kind == "library":
        adapter["library"] = {"arguments": [], "instantiate_after_shims": bool(words.take("after-shims"))}
    elif adapter["library"] is None:
        raise words.bad("no exports or library")
    elif kind == "argument":
        name = words.name()
        words.expect("=")
        instance = {"kind": "items", "items": []} if words.take("items") else {"kind": "module", "which": which(words)}
        adapter["library"]["arguments"].append({"name": name, "instance": instance})
    else:
        arguments = adapter["library"]["arguments"]
        if not arguments or "items" not in arguments[-1]["instance"]:
            raise words.bad("an item of no argument of items")
        arguments[-1]["instance"]["items"].append(library_item(words))


def library_item(words):
    """`ALIAS: KIND NAME of main`, or `.. of adapter NAME`."""
    alias = words.name()
    words.expect(":")
    kind = words.expect(*KINDS_OF_ITEMS)
    name = words.name()
    words.expect("of")
    return {"alias": alias, "kind": kind, "which": which(words), "name": name}


def encoder_line(words, encoder):
    """A line of an encoder that opens nothing."""
    kind = words.expect("encode", "module-exports", "reject-legacy-names", "realloc-via-memory-grow", "task-hook")
    if kind == "encode":
        encoder.world = words.id("w")
    elif kind == "module-exports":
        encoder.exports = keys(words, encoder.exports)
    else:
        encoder.flags[kind.replace("-", "_")] = words.name() if kind == "task-hook" else True


LINES = {
    "type": type_line, "repeat": repeat_line, "interface": interface_line, "package": package_line, "world": world_line,
    "module": module_line, "adapter": adapter_line,
}


def encoder_of(lines):
    """What lines describe. Lines of a script, which begin with `do `, are passed over."""
    encoder = Encoder()
    for line in lines:
        words = Words(line)
        if words.is_done() or line.startswith("do "):
            continue
        if line.startswith(" "):
            if encoder.open is None:
                raise words.bad("a member of nothing")
            part, member = encoder.open
            member(words, part, len(encoder.resolve["types"]))
        else:
            encoder.open = None
            kind = words.take(*LINES)
            (LINES[kind] if kind else encoder_line)(words, encoder)
        words.end()
    return encoder
