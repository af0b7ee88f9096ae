"""Records, places and names out of the library's JSON, as lines of answers (docs/ROWS.md)."""
import json
import re

from row_format import quoted

PLAIN = re.compile(r"[A-Za-z0-9_.\[\]/@#+:$|-]+")
ID = re.compile(r"[tipw]\d+")
TAKEN = "in", "of", "clones", "none", "named"
SECTIONS = "custom type import function table memory global export start element code data".split() + ["data count"]


def text_of(value):
    """A JSON value as the library writes it: without spaces, with the shortest escapes."""
    return json.dumps(value, ensure_ascii=False, separators=(",", ":"))


def shown_name(name):
    """A name, in quotes unless it is plain."""
    if PLAIN.fullmatch(name) and name not in TAKEN and not ID.fullmatch(name) and ":" not in (name[0], name[-1]):
        return name
    return '"%s"' % name.replace("\\", "\\\\").replace('"', '\\"').replace("\n", "\\n")


def shown_value_type(value):
    """A value type, as in a line of a fault."""
    if isinstance(value, str):
        return {"non-null-funcref": "(ref func)", "non-null-externref": "(ref extern)"}.get(value, value)
    return "(ref %s%d)" % ("null " if value["nullable"] else "", value["index"])


def shown_types(types):
    """`wanted T, found T`."""

    def shown(ty):
        params, results = ([shown_value_type(it) for it in ty[key]] for key in ("params", "results"))
        listed = results[0] if len(results) == 1 else "(%s)" % ", ".join(results)
        return "(%s) -> %s" % (", ".join(params), listed)

    wanted = types["wanted"]
    names_types = any(isinstance(it, dict) for it in wanted["params"] + wanted["results"])
    owner = " by the types of the importing module" if names_types else ""
    return "wanted %s%s, found %s" % (shown(wanted), owner, shown(types["found"]))


def subject_of(place):
    """The line of what a fault is about."""
    kind = place["kind"]
    if kind == "import":
        return "import %s %s" % (quoted(place["module"]), quoted(place["name"]))
    if kind == "missing-function":
        return "missing %s %s" % (quoted(place["module"]), quoted(place["name"]))
    if kind in ("export", "missing-export"):
        return "%s %s" % (kind.replace("-", " "), quoted(place["name"]))
    if kind == "bytes":
        found = place["section"]
        return "byte %d" % place["offset"] + ("" if found is None else ", in the %s section" % SECTIONS[found])
    if kind == "section":
        return "%s section" % SECTIONS[place["id"]]
    if kind == "body":
        body = "body of function %d" % place["function"]
        return body if place["operator"] is None else "operator %d of the %s" % (place["operator"], body)
    if kind == "page-sizes":
        return "pages %d %d" % (place["own"], place["main"])
    if kind == "module":
        return "none"
    raise ValueError("no place of a module: %s" % text_of(place))


def lines_of_place(place):
    """What a fault of a module is about, as lines; `none` for nothing."""
    if place is None:
        return ["none"]
    types = place.get("types")
    return [subject_of(place)] + ([] if types is None else [shown_types(types)])


def shown_which(which):
    """`main`, or `adapter NAME`."""
    return "main" if which["kind"] == "main" else "adapter " + shown_name(which["name"])


def lines_of_imports(record, has_whole=True):
    """What is recorded of a module's imports: `MODULE NAME: IMPORT`, and `MODULE: WHICH` where it gets a whole module."""
    lines = []
    for entry in record["imports"]:
        module, instance = shown_name(entry["module"]), entry["instance"]
        if instance["kind"] == "names":
            lines += ["%s %s: %s" % (module, shown_name(it["name"]), text_of(it["import"])) for it in instance["names"]]
        elif has_whole:
            lines.append("%s: %s" % (module, shown_which(instance["which"])))
    return lines


def lines_of_exports(record):
    """What is recorded of a module's exports: `NAME: EXPORT`."""
    return ["%s: %s" % (shown_name(it["name"]), text_of(it["export"])) for it in record["exports"]]
