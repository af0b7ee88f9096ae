"""Rows of calls on bytes, asked of the library: what a row wants is what the library of Rattle returns, written as lines."""
import json

from library import BAD_ARGUMENT, DONE, FAULT, MEMORY, SAME
from module_bytes import name_at, number_at
from records import lines_of_place
from row_format import BadRow, bytes_of, lines_of_bytes, quoted

SPACES = "type", "func", "table", "memory", "global"


def names_from(row, first, is_needed=False):
    """The arguments from one on, each once."""
    names = list(dict.fromkeys(row.arguments[first:]))
    if is_needed and not names:
        raise BadRow("no names", row.call)
    return [name.encode() for name in names]


def bytes_from(row, first):
    """The bytes of the arguments from one on; `-` has none."""
    return [b"" if word == "-" else bytes_of([word]) for word in row.arguments[first:]]


def member(data):
    """What a call says of its fault: a JSON object, or None."""
    return json.loads(data) if data else None


def fault_lines(library, call, answer, names=()):
    """The line of a fault of a call on bytes."""
    if answer.status == MEMORY:
        return ["fault out of memory"]
    if answer.status != FAULT:
        raise BadRow("no answer: status %d" % answer.status)
    text = library.fault_text(call, answer.fault)
    is_missing = call in ("trim", "why") and answer.fault == 2
    return ["fault " + text + (" `%s`" % names[answer.position].decode() if is_missing else "")]


def trimmed(row, doors, realloc, page, names):
    arguments = [bytes_of(row.input), names, realloc is not None, realloc or b"", page]
    return doors.library.ask("trim", *arguments)


def answer_trim(row, doors, names=None, realloc=None, page=16):
    names = names or names_from(row, 0, True)
    answer = trimmed(row, doors, realloc, page, names)
    if answer.status == BAD_ARGUMENT:
        raise BadRow("no exponent", row.argument(1))
    return lines_of_bytes("bytes", answer.bytes) if answer.status == DONE else fault_lines(doors.library, "trim", answer, names)


def answer_trim_for(row, doors):
    realloc = row.argument(0)
    return answer_trim(row, doors, names_from(row, 2, True), None if realloc == "-" else realloc.encode(), row.number(1, "exponent"))


def explained(library, call, answer, names=()):
    """`ok`; or the fault and what it is about."""
    if answer.status in (DONE, SAME):
        return ["ok"]
    return fault_lines(library, call, answer, names) + lines_of_place(member(answer.bytes))


def answer_explain_trim(row, doors):
    names = names_from(row, 0, True)
    return explained(doors.library, "trim", trimmed(row, doors, None, 16, names), names)


def answer_explain_dedupe(row, doors):
    return explained(doors.library, "dedupe", doors.library.ask("dedupe", bytes_of(row.input)))


def answer_explain_read(row, doors):
    """`scan` reads a module as `read_module` does."""
    return explained(doors.library, "scan", doors.library.ask("scan", bytes_of(row.input)))


def renames_of(data):
    """The renames after a renamed module: of each its module, its original name and its new one."""
    count, at = number_at(data, 0)
    for _ in range(count):
        words = []
        for _ in range(3):
            word, at = name_at(data, at)
            words.append(word)
        yield words


def answer_dedupe(row, doors):
    wasm = bytes_of(row.input)
    answer = doors.library.ask("dedupe", wasm)
    if answer.status == SAME:
        return [*lines_of_bytes("borrowed", wasm), "no map"]
    if answer.status != DONE:
        return fault_lines(doors.library, "dedupe", answer)
    renames = ["renamed " + " ".join(map(quoted, words)) for words in renames_of(answer.bytes[answer.module_length :])]
    return lines_of_bytes("owned", answer.bytes[: answer.module_length]) + renames


def chain(found, position):
    """The export and the items of the path to the item at a position: each item was found from one before it."""
    positions = [position]
    while found["finders"][positions[-1]] != positions[-1]:
        positions.append(found["finders"][positions[-1]])
    positions.reverse()
    items = [found["items"][at] for at in positions]
    return " ".join(["export", quoted(found["exports"][positions[0]]), *("%(space)s %(index)d" % item for item in items)])


def answer_why(row, doors):
    if row.argument(0) not in SPACES:
        raise BadRow("no space", row.argument(0))
    item, names = {"space": row.argument(0), "index": row.number(1, "index")}, names_from(row, 2)
    answer = doors.library.ask("why", bytes_of(row.input), names)
    if answer.status != DONE:
        return fault_lines(doors.library, "why", answer, names)
    found = json.loads(answer.bytes)
    return [chain(found, found["items"].index(item)) if item in found["items"] else "not live"]


def answer_why_imports(row, doors):
    names = names_from(row, 0)
    answer = doors.library.ask("why", bytes_of(row.input), names)
    if answer.status != DONE:
        return fault_lines(doors.library, "why", answer, names)
    found = json.loads(answer.bytes)
    lines = ["not live" if position is None else chain(found, position) for position in found["imports"]]
    return ["items %d" % len(found["items"]), *lines]


def step_line(step):
    """A step of a path, as a line."""
    if step["kind"] == "export":
        return "  export " + step["name"]
    if step["kind"] == "fills":
        return "  fills %(space)s %(index)d" % step
    return "  start" if step["kind"] == "start" else "  %(space)s %(index)d" % step


def answer_paths(row, doors):
    """The path to each import that `scan` lists."""
    wasm, library = bytes_of(row.input), doors.library
    answer = library.ask("paths", wasm, [], [])
    if answer.status != DONE:
        function = (member(answer.bytes) or {}).get("function")
        return [line + ("" if function is None else " %d" % function) for line in fault_lines(library, "paths", answer)]
    ways, lines = json.loads(answer.bytes)["ways"], []
    for it in json.loads(library.ask("scan", wasm).bytes)["imports"]:
        if ways and (ways[0]["interface"], ways[0]["name"]) == (it["module"], it["name"]):
            lines += ["%(module)s %(name)s" % it, *map(step_line, ways.pop(0)["steps"])]
        else:
            lines.append("%(module)s %(name)s: not reached" % it)
    return lines


def answer_function_names(row, doors):
    answer = doors.library.ask("scan", bytes_of(row.input))
    if answer.status != DONE:
        return fault_lines(doors.library, "scan", answer)
    return ["name of func %d %s" % (it["index"], quoted(it["name"])) for it in json.loads(answer.bytes)["function_names"]]


def answer_fronts(row, doors):
    """What reading and trimming each front of a module return."""
    wasm, names, library, lines = bytes_of(row.input), names_from(row, 0, True), doors.library, []
    for length in range(len(wasm)):
        read, cut = library.ask("scan", wasm[:length]), library.ask("trim", wasm[:length], names, False, b"", 16)
        said = "is a module" if read.status == DONE else fault_lines(library, "scan", read)[0].removeprefix("fault ")
        then = "is trimmed" if cut.status == DONE else fault_lines(library, "trim", cut, names)[0].removeprefix("fault ")
        lines.append("%d %s, %s" % (length, said, then))
    return lines


# calls on slices, whose answers are the numbers that they return and the whole buffer

def answer_lines(answer):
    if answer.status == MEMORY:
        return ["out of memory"]
    head = "status %d fault %d length %d module %d" % (answer.status, answer.fault, answer.length, answer.module_length)
    return [head, "position %d" % answer.position, *lines_of_bytes("buffer", answer.buffer)]


def room_of(row):
    return row.number(0, "room")


def into(call, *arguments):
    return lambda row, doors: answer_lines(doors.library.ask(call, *(of(row) for of in arguments), room=room_of(row)))


def wasm_of(row):
    return bytes_of(row.input)


def answer_trim_into(row, doors):
    names, page = bytes_from(row, 2), row.number(1, "exponent")
    if not names:
        raise BadRow("no realloc", row.call)
    arguments = [wasm_of(row), names[1:], row.argument(2) != "-", names[0], page]
    return answer_lines(doors.library.ask("trim", *arguments, room=room_of(row)))


def answer_trim_to_write(row, doors):
    return answer_lines(doors.library.ask("trim", wasm_of(row), [b"write"], True, b"realloc", 16, room=room_of(row)))


def answer_paths_into(row, doors):
    count, texts = row.number(1, "exports"), bytes_from(row, 2)
    return answer_lines(doors.library.ask("paths", wasm_of(row), texts[:count], texts[count:], room=room_of(row)))


def answer_fault_text_into(row, doors):
    return answer_lines(doors.library.ask("fault_text", row.number(1), row.number(2), room=room_of(row)))


def message_of(row):
    """The message and the modules: so many lines of input as the second argument says, and the bytes of the others."""
    count = row.number(1, "message")
    if count > len(row.input):
        raise BadRow("no message", row.call)
    return "".join(line + "\n" for line in row.input[:count]).encode(), bytes_of(row.input[count:])


def on_message(call, more=lambda row: ()):
    return lambda row, doors: answer_lines(doors.library.ask(call, *message_of(row), *more(row), room=room_of(row)))


def answer_message_fault(row, doors):
    """The text of the fault of a message, which is bytes here, without modules."""
    answer = doors.library.ask("world", bytes_of(row.input), b"")
    return ["fault " + answer.bytes[: answer.position].decode()] if answer.status == FAULT else ["ok"]


def key_of(row):
    return (bytes_from(row, 2) or [b"all"])[:1]


def adapter_of(row):
    names = bytes_from(row, 2)
    return bool(names), names[0] if names else b""


def required_of(row):
    """The adapter, and the functions that are required of it."""
    words = row.arguments[2:3]
    return bool(words), bytes_of(words), bytes_of(row.arguments[3:])


CALLS = {
    "trim": answer_trim,
    "trim_for": answer_trim_for,
    "explain_trim": answer_explain_trim,
    "explain_dedupe": answer_explain_dedupe,
    "explain_read": answer_explain_read,
    "dedupe": answer_dedupe,
    "why": answer_why,
    "why_imports": answer_why_imports,
    "paths": answer_paths,
    "function_names_of": answer_function_names,
    "fronts": answer_fronts,
    "dedupe_into": into("dedupe", wasm_of),
    "scan_into": into("scan", wasm_of),
    "why_into": into("why", wasm_of, lambda row: bytes_from(row, 1)),
    "trim_into": answer_trim_into,
    "trim_to_write": answer_trim_to_write,
    "paths_into": answer_paths_into,
    "fault_text_into": answer_fault_text_into,
    "world_into": on_message("world"),
    "plan_into": on_message("plan"),
    "component_imports_into": on_message("component_imports"),
    "component_paths_into": on_message("component_paths", key_of),
    "validate_into": on_message("validate", adapter_of),
    "message_fault": answer_message_fault,
    "record_into": on_message("validated_module", required_of),
}
