"""Calls on worlds, encoders and their modules, asked of the library by messages (docs/ROWS.md)."""
import json

from described_modules import HEADER, Module, described
from library import DONE, FAULT, MEMORY
from records import lines_of_exports, lines_of_imports, lines_of_place, shown_name, text_of
from row_format import BadRow, lines_of_bytes
from words import Words
from worlds import encoder_of

ROOM = 1 << 20
# Stages of a message before its resolved worlds are looked at.
BEFORE_RESOLVE = "NotText", "Json", "UnknownWorld", "SeveralWorlds", "PackageRange", "Lengths"
BEFORE_ENCODER = (*BEFORE_RESOLVE, "Resolve", "UnknownKey", "SeveralKeys", "RepeatedKey", "AdapterTwice", "Main module")


class Refused(Exception):
    """The fault of a call, without the words before it that name the stage; and its place, as JSON."""

    def __init__(self, text, place):
        super().__init__(text)
        self.text, self.place = text, place


class OutOfMemory(Exception):
    """A call had no memory."""


def stage_of(text):
    """The word that a fault's text begins with."""
    return text.partition(":")[0].partition(" `")[0]


def value_of(data):
    """The value that a JSON text is. The library writes no blanks, and the shortest escapes."""
    value = json.loads(data)
    if text_of(value).encode() != data:
        raise BadRow("JSON of another form", data.decode())
    return value


def asked(doors, call, message, modules, *more):
    """What a call on a message answers: its bytes, and how many are modules. `Refused` where it has a fault."""
    answer = doors.library.ask(call, text_of(message).encode(), modules, *more, room=ROOM + 16 * len(modules))
    if answer.status == DONE:
        return answer.bytes, answer.module_length
    if answer.status == MEMORY:
        raise OutOfMemory
    if answer.status != FAULT or answer.length > len(answer.buffer):
        raise BadRow("status %d" % answer.status, call)
    place = answer.bytes[answer.position:]
    raise Refused(answer.bytes[:answer.position].decode(), value_of(place) if place else None)


def without(text, prefix):
    """A fault's text without the words before it that the row's call has not. Another stage's fault is no answer."""
    if not text.startswith(prefix):
        raise BadRow("a fault of another stage", text)
    return text.removeprefix(prefix)


# Worlds and encoders, built.

def stage_asked(row, doors, before, stage):
    """`ok`, or the fault of a stage of the message of a row's encoder, where all stages before pass."""
    encoder = encoder_of(row.input)
    try:
        asked(doors, "validate", *encoder.message(HEADER), False, b"")
    except Refused as refused:
        found = stage_of(refused.text)
        if found == stage:
            return ["fault " + without(refused.text, stage + ": ")]
        if found in before:
            raise BadRow("a fault of an earlier stage", refused.text) from refused
    return ["ok"]


def resolve_build(row, doors):
    """Whether worlds are well-formed."""
    return stage_asked(row, doors, BEFORE_RESOLVE, "Resolve")


def encoder_build(row, doors):
    """Whether parts are an encoder's."""
    return stage_asked(row, doors, BEFORE_ENCODER, "Encoder")


def json_fault(doors, text):
    """What is wrong with a message's JSON; None where it is read."""
    answer = doors.library.ask("validate", text.encode(), b"", False, b"", room=ROOM)
    if answer.status == MEMORY:
        raise OutOfMemory
    found = answer.bytes[:answer.position].decode() if answer.status == FAULT else ""
    return without(found, "Json: ") if stage_of(found) == "Json" else None


def document(row, doors):
    """Why a text is no document: it is asked about as the worlds of a message. One that is no JSON is by itself none either."""
    text = "\n".join(row.input)
    fault = json_fault(doors, '{"resolve":%s,"world":0,"length":0,"exports":[],"adapters":[]}' % text)
    if fault is None:
        raise BadRow("a document that is read")
    if fault == "not JSON" and json_fault(doors, text) != fault:
        raise BadRow("a document that a message can't have")
    return ["fault " + fault.removeprefix("resolve.").removeprefix("resolve: ")]


# Modules, validated.

def record_of(doors, encoder, main, adapter=None, required=b""):
    """What is recorded of a main module, or of an adapter beside an empty one."""
    if adapter is None:
        message, modules = encoder.message(main)
        more, prefix = (False, b"", b""), "World: Main: "
    else:
        message, modules = encoder.message(HEADER)
        more, prefix = (True, adapter.encode(), required), "World: Adapter `%s`: " % adapter
    try:
        return value_of(asked(doors, "validated_module", message, modules, *more)[0])
    except Refused as refused:
        raise Refused(without(refused.text, prefix), refused.place) from refused


def imported_memory(record):
    """The type of the memory that is imported of the main module, or `none`."""
    for entry in record["imports"]:
        for named in entry["instance"].get("names", []):
            if named["import"]["kind"] == "main-module-memory":
                return [text_of(named["import"]["type"])]
    return ["none"]


PARTS_OF_RECORDS = {
    None: lines_of_imports,
    "imports": lambda record: lines_of_imports(record, has_whole=False),
    "memory": imported_memory,
    "explain": lambda record: ["ok"],
}


def answer_of_record(words, record):
    """What the last word of a call asks of a record, where there is one, or why there is none."""
    part = words.take(*filter(None, PARTS_OF_RECORDS))
    words.end()
    try:
        return PARTS_OF_RECORDS[part](record())
    except Refused as refused:
        return ["fault " + refused.text] + (lines_of_place(refused.place) if part == "explain" else [])


def validate_module(row, doors):
    """A main module: that of the encoder, or the one that lines describe."""
    words, encoder = Words(" ".join(row.arguments)), encoder_of(row.input)
    if words.take("main"):
        main = encoder.module
    else:
        main = described(row.input).bytes()
    return answer_of_record(words, lambda: record_of(doors, encoder, main))


def validate_adapter_module(row, doors):
    """The module that lines describe, as an adapter of the encoder."""
    words, encoder, module = Words(" ".join(row.arguments)), encoder_of(row.input), described(row.input)
    adapter = encoder.adapter(words.name())
    adapter["wasm"] = module.bytes()
    return answer_of_record(words, lambda: record_of(doors, encoder, None, adapter["name"], module.required_bytes()))


def validated_exports(row, doors):
    """What is recorded of the exports of the module that lines describe."""
    try:
        return lines_of_exports(record_of(doors, encoder_of(row.input), described(row.input).bytes()))
    except Refused as refused:
        return ["fault " + refused.text]


def each_described(row):
    """For each line of a script a module of its own, and the line's words."""
    for line in row.input:
        if line.startswith("do "):
            yield Module(), Words(line.removeprefix("do "))


def classify(row, doors):
    """For each line, an import of a function, what is recorded of it."""
    encoder, lines = encoder_of(row.input), []
    for module, words in each_described(row):
        module.add_import(words, "func")
        (field, name, *_), = module.imports
        try:
            (entry,) = record_of(doors, encoder, module.bytes())["imports"]
            (named,) = entry["instance"]["names"]
            said = text_of(named["import"])
        except Refused as refused:
            said = "fault " + refused.text
        lines.append("%s %s: %s" % (shown_name(field), shown_name(name), said))
    return lines


def classify_export(row, doors):
    """For each line, an export, what is recorded of it."""
    encoder, lines = encoder_of(row.input), []
    for module, words in each_described(row):
        module.add_export(words)
        try:
            exports = record_of(doors, encoder, module.bytes())["exports"]
            said = text_of(exports[0]["export"]) if exports else "none"
        except Refused as refused:
            said = "fault " + refused.text
        lines.append("%s: %s" % (shown_name(module.exports[0][0]), said))
    return lines


# The worlds of components, and plans.

def message_of(row):
    """The message of a row's encoder, and the modules' bytes. Lines `do ..` describe its main module, where there are any."""
    encoder = encoder_of(row.input)
    has_script = any(line.startswith("do ") for line in row.input)
    return encoder.message(described(row.input).bytes() if has_script else encoder.module)


def adapters_of(world, line_of):
    """For each adapter and library a line with its name, and lines."""
    lines = []
    for adapter in world["adapters"]:
        kind = "adapter " if adapter["library_info"] is None else "library "
        lines += [kind + shown_name(adapter["name"]), *line_of(adapter)]
    return lines


def lines_of_adapters(world, _modules):
    """The records of adapters and libraries."""
    return adapters_of(world, lambda it: lines_of_imports(it["info"]) + lines_of_exports(it["info"]))


def lines_of_adapter_bytes(world, modules):
    """The bytes of adapters and libraries, which come after the main module's."""
    rest = modules[len(modules) - sum(it["length"] for it in world["adapters"]):]

    def next_bytes(adapter):
        nonlocal rest
        front, rest = rest[:adapter["length"]], rest[adapter["length"]:]
        return lines_of_bytes("bytes", front)

    return adapters_of(world, next_bytes)


def lines_of_import_map(world, _modules):
    """How imports are met."""
    lines = []
    for entry in world["import_map"]:
        name, lowerings = entry.pop("name"), entry.pop("lowerings")
        lines.append("%s: %s" % ("none" if name is None else shown_name(name), text_of(entry)))
        lines += ["  %s %s: %s" % (shown_name(it["name"]), it["abi"], text_of(it["lowering"])) for it in lowerings]
    return lines


def lines_of_used(world, _modules):
    """For each exported interface those that it uses."""
    return [" ".join(["i%d uses" % it["interface"], *map("i%d".__mod__, it["uses"])]) for it in world["exports_used"]]


def lines_of_live(world, _modules):
    """For each interface its live types."""
    return [" ".join(["i%d:" % it["interface"], *map("t%d".__mod__, it["types"])]) for it in world["live_type_imports"]]


def lines_of_export_options(world, _modules):
    """For each exported function its interface, or `none`, and its options."""
    shown = lambda it: "none" if it["interface"] is None else "i%d" % it["interface"]
    return ["%s %s: %d" % (shown(it), shown_name(it["name"]), it["options"]) for it in world["export_options"]]


PARTS_OF_WORLDS = {
    "main": lambda world, modules: lines_of_imports(world["info"]),
    "adapters": lines_of_adapters,
    "bytes": lines_of_adapter_bytes,
    "imports": lines_of_import_map,
    "used": lines_of_used,
    "live": lines_of_live,
    "options": lines_of_export_options,
    "explain": lambda world, modules: ["ok"],
}


def lines_of_parts(row, doors, call, parts):
    """The parts of a world that a row asks for, in order."""
    for part in row.arguments:
        if part not in parts:
            raise BadRow("no part of a world", part)
    made, length = asked(doors, call, *message_of(row))
    lines = []
    for part in row.arguments:
        lines += parts[part](value_of(made[length:]), made[:length])
    return lines


def component_world(row, doors):
    """Parts of the world of an encoder, or why it has none; with `explain` also where."""
    try:
        return lines_of_parts(row, doors, "world", PARTS_OF_WORLDS)
    except Refused as refused:
        return lines_of_refused_world(row, refused)


def lines_of_refused_world(row, refused):
    """Why there is no world; after PageSize the sizes, and with `explain` where."""
    lines, place = ["fault " + without(refused.text, "World: ")], refused.place
    if place and place["kind"] == "page-sizes":
        lines.append("pages of %s: %d %d" % (place["adapter"], place["own"], place["main"]))
    if row.arguments != ["explain"]:
        return lines
    if place is None or place["kind"] == "module":
        return lines + ["none"]
    adapter = place["adapter"]
    return lines + ["in the main module" if adapter is None else "in " + adapter, *lines_of_place(place)]


def fault_of_plan(refused):
    """The line of a fault of a plan, or of its world."""
    text = refused.text if refused.text.startswith("World: ") else without(refused.text, "Plan: ")
    return "fault " + text


def function_of(place):
    """The name of the function that a fault of a plan is about, if it is about one."""
    return [] if place is None or place["kind"] != "function" else [place["name"]]


def way(abi):
    """How a function is called."""
    return "async" if abi == "guest-import-async" else "sync"


def or_fault(shown):
    """A call that shows a plan, or its fault and the function that this is about."""

    def call(row, doors):
        try:
            return shown(row, doors)
        except Refused as refused:
            return [fault_of_plan(refused), *map("of ".__add__, function_of(refused.place))]

    return call


def plan_made(row, doors):
    """The plan of a row's encoder, as JSON."""
    return asked(doors, "plan", *message_of(row))[0]


def lines_of_uses(uses):
    """A line for each use of a plan."""
    lines = []
    for use in uses:
        owner, slot = use["module"], "-" if use["slot"] is None else use["slot"]
        interface = "$root" if use["interface"] is None else use["interface"]
        who = "main" if owner["kind"] == "main" else "adapter " + owner["name"]
        function = "%s %s %s" % (interface, use["name"], way(use["abi"]))
        lines.append("%s %s slot %s realloc %s" % (who, function, slot, use["realloc"] or "-"))
    return lines


def plan_explain(row, doors):
    """Why there is no plan, and for which function."""
    try:
        plan_made(row, doors)
        return ["ok"]
    except Refused as refused:
        lines, place = [fault_of_plan(refused)], refused.place
    if not function_of(place):
        return lines + ["none"]
    who = "main" if place["adapter"] is None else "adapter " + place["adapter"]
    interface = "$root" if place["interface"] is None else place["interface"]
    return lines + ["%s %s %s %s" % (who, interface, place["name"], way(place["abi"]))]


PARTS_OF_PLANNED_WORLDS = {**PARTS_OF_WORLDS, "plan": lambda world, modules: lines_of_uses(world["plan"])}


def or_memory(answer):
    """A call that says where memory ran out."""

    def call(row, doors):
        try:
            return answer(row, doors)
        except OutOfMemory:
            return ["fault out of memory"]

    return call


ANSWERS = {
    "resolve_build": resolve_build,
    "encoder_build": encoder_build,
    "document": document,
    "validate_module": validate_module,
    "validate_adapter_module": validate_adapter_module,
    "validated_exports": validated_exports,
    "classify": classify,
    "classify_export": classify_export,
    "component_world": component_world,
    "plan": or_fault(lambda row, doors: lines_of_uses(value_of(plan_made(row, doors)))),
    "plan_json": or_fault(lambda row, doors: [plan_made(row, doors).decode()]),
    "planned_world": or_fault(lambda row, doors: lines_of_parts(row, doors, "planned_world", PARTS_OF_PLANNED_WORLDS)),
    "plan_explain": plan_explain,
}
CALLS = {name: or_memory(answer) for name, answer in ANSWERS.items()}
