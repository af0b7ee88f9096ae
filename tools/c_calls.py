#!/usr/bin/env python3
"""Makes one table of the calls of include/nuigatre.h, for languages that call the library without its header.

    tools/c_calls.py [--write]

The table has each call's parameters and result, the fields of an answer, the statuses, the numbers of the calls on bytes, and
the faults: web/calls.mjs for JavaScript, and python/nuigatre/_calls.py for Python. --write makes both. Without it they are
compared with the header, and each call has to be made by both languages, and to be a method of the types of TypeScript.
Differences are printed; the status is then 1.
"""
import argparse
import json
import re
import sys

from repository import TOP, read

TYPES = {"uint32_t": "u32", "uint64_t": "u64", "bool": "bool"}
# what a parameter is that is a pointer, and then its length
POINTERS = {"const uint8_t *": "bytes", "const nuigatre_slice *": "slices", "uint8_t *": "out"}
RESULTS = {"nuigatre_answer": "answer", "uint32_t": "u32"}
# the calls that the languages make for themselves, and give no method of their own
INNER = {"fault_text", "abi"}


def without_comments(text):
    return re.sub(r"/\*.*?\*/", "", text, flags=re.S)


def parameters_of(text):
    """The parameters of a prototype, a slice as one: names, and what each is."""
    listed = [re.match(r"(.*?)(\w+)$", " ".join(it.split())).groups() for it in text.split(",") if it.strip() != "void"]
    for at, (kind, name) in enumerate(listed):
        if kind in POINTERS:
            assert listed[at + 1] == ("size_t ", name + "_length"), name
            yield name, POINTERS[kind]
        elif kind.strip() != "size_t":
            yield name, TYPES[kind.strip()]


def calls_of(text):
    """The calls by their names without `nuigatre_`."""
    for result, name, inside in re.findall(r"^(\w+) nuigatre_(\w+)\(([^)]*)\);", text, re.M):
        yield name, {"parameters": [list(it) for it in parameters_of(inside)], "result": RESULTS[result]}


def numbers_of(text, enum, prefix):
    """The members of an enum, and their numbers."""
    inside = re.search(r"enum %s \{(.*?)\};" % enum, text, re.S)[1]
    return {name.removeprefix(prefix): int(number) for name, number in re.findall(r"(\w+) = (\d+)", inside)}


def table():
    """What the header declares."""
    text = without_comments(read("include", "nuigatre.h"))
    answer = re.search(r"typedef struct nuigatre_answer \{(.*?)\}", text, re.S)[1]
    faults = {}
    for name in re.findall(r"enum nuigatre_(\w+?)(?:_fault)? \{", text):
        if name not in ("status", "call"):
            full = name if name == "problem" else name + "_fault"
            faults[name] = numbers_of(text, "nuigatre_" + full, "NUIGATRE_%s_" % name.upper())
    return {
        "abi": int(re.search(r"#define NUIGATRE_ABI (\d+)", text)[1]),
        "answer": [[name, kind] for kind, name in re.findall(r"(\w+) (\w+);", answer)],
        "statuses": numbers_of(text, "nuigatre_status", "NUIGATRE_"),
        "numbers": {name.removesuffix("_CALL").lower(): number
                    for name, number in numbers_of(text, "nuigatre_call", "NUIGATRE_").items()},
        "calls": dict(calls_of(text)),
        "faults": faults,
    }


NOTES = {
    "abi": "the number that nuigatre_abi has to answer",
    "answer": "the fields of an answer",
    "statuses": "the statuses of answers",
    "numbers": "the calls on bytes, for fault_text",
    "calls": "the calls, without `nuigatre_`: the parameters with what each is, and the result",
    "faults": "the faults of each enum",
}
HEAD = "Made of include/nuigatre.h by tools/c_calls.py --write."


def member(value, opening, closing, entry):
    """A value over lines, one for each entry."""
    return "%s\n%s%s" % (opening, "".join("    %s,\n" % line for line in entry(value)), closing)


def javascript(made):
    lines = ["// " + HEAD]
    for name, value in made.items():
        text = json.dumps(value)
        if isinstance(value, dict):
            text = member(value, "{", "}", lambda it: ("%s: %s" % (key, json.dumps(of)) for key, of in it.items()))
        lines += ["", "/** %s */" % (NOTES[name][0].upper() + NOTES[name][1:]), "export const %s = %s;" % (name.upper(), text)]
    return "\n".join(lines) + "\n"


def python(made):
    lines = ['"""%s"""' % HEAD, "", "from __future__ import annotations", "", "from typing import Any"]
    for name, value in made.items():
        text, kind = json.dumps(value), ": dict[str, Any]" if name == "calls" else ""
        if isinstance(value, dict):
            text = member(value, "{", "}", lambda it: ('"%s": %s' % (key, json.dumps(of)) for key, of in it.items()))
        lines += ["", "# " + NOTES[name], "%s%s = %s" % (name.upper(), kind, text)]
    return "\n".join(lines) + "\n"


MADE = {("web", "calls.mjs"): javascript, ("python", "nuigatre", "_calls.py"): python}


def camel(name):
    first, *others = name.split("_")
    return first + "".join(it.capitalize() for it in others)


# the file of each language, and a pattern of each call there
MAKES = {
    ("web", "nuigatre.mjs"): lambda name: r'#call\("%s"' % name,
    ("web", "nuigatre.d.mts"): lambda name: r"^  %s\(" % camel(name),
    ("python", "nuigatre", "__init__.py"): lambda name: r'\bcall\("%s"' % name,
}


def lacking(made):
    """A line for each call that a language lacks, and for each file that is not the header's."""
    for parts, text_of in MADE.items():
        path = TOP.joinpath(*parts)
        if not path.is_file() or path.read_text(encoding="utf-8") != text_of(made):
            yield "/".join(parts) + " is not what include/nuigatre.h says: tools/c_calls.py --write"
    for parts, pattern_of in MAKES.items():
        text = read(*parts)
        for name in made["calls"]:
            if name not in INNER and not re.search(pattern_of(name), text, re.M):
                yield "%s lacks the call nuigatre_%s" % ("/".join(parts), name)


def main():
    parser = argparse.ArgumentParser(description=__doc__, formatter_class=argparse.RawDescriptionHelpFormatter)
    parser.add_argument("--write", action="store_true")
    made = table()
    if parser.parse_args().write:
        for parts, text_of in MADE.items():
            TOP.joinpath(*parts).write_text(text_of(made), encoding="utf-8")
    lines = list(lacking(made))
    print("\n".join(lines) or "%d calls: all languages have them" % len(made["calls"]))
    return 1 if lines else 0


if __name__ == "__main__":
    sys.exit(main())
