#!/usr/bin/env python3
"""Lists for each fault of each library a row of tests that results in it, and a row that shows its place; and makes the tables of
faults on the pages of the programs.

    fault-rows.py            prints the lists
    fault-rows.py --write    writes them to checks/fault-rows.txt, and the tables to the pages
    fault-rows.py --check    compares them; the status is 1 if they differ

Faults and texts are those of the definitions in specs/ (tools/fault_texts.py); `#[error("..")]` has to have the same text. A row
results in a fault if it wants the fault's text, or the text of a fault that carries it, of a call with such faults (ANSWERED).
No row can reach the faults of BARRED, and Memory comes of failed allocations. The faults of PLACED have places, but for those
of UNPLACED. A table has the docs of each variant, and what to do about it (checks/fault-hints.txt). The status is also 1 if
another fault has no row.
"""
import argparse
import functools
import pathlib
import re
import sys

sys.path.append(str(pathlib.Path(__file__).resolve().parent.parent / "tools"))
from fault_texts import texts_of_faults
from repository import TOP, files_of, product_crates, put_between, row_files
from row_format import rows_of

FILE = TOP / "checks" / "fault-rows.txt"
HINTS = TOP / "checks" / "fault-hints.txt"
# how many words a sentence on a page may have (check-docs.py)
MOST_WORDS = 40

# The tables on pages: the enum, the page, the title of the first column, and what is printed before the fault's text.
TABLES = [
    ("DedupeFault", "docs/WCTRIM.md", "Line of dedupe", "wctrim: Dedupe: "),
    ("GcFault", "docs/WCTRIM.md", "Line of trim", "wctrim: Trim: "),
    ("ReadFault", "docs/WCTRIM.md", "FAULT", ""),
    ("ValidateFault", "docs/WCPLAN.md", "FAULT", ""),
]

# The enums of faults, and the calls that answer them.
ANSWERED = {
    "ReadFault": "frames, read_imports, read_module, explain_read, read_body, read_init, example exports_memory, function_names_of",
    "DedupeFault": "dedupe, dedupe_owned, explain_dedupe, example original_name",
    "ResolveFault": "resolve_build, resolve_build_with",
    "JsonFault": "document",
    "EncoderFault": "encoder_build, example encoder_for",
    "ValidateFault":
        "classify, classify_export, validate_module, validate_adapter_module, validated_exports, asked_exports, example "
        "imported_memory",
    "GcFault":
        "explain_trim, liveness_counted, trim, trim_for, why, why_imports, call_chain, example "
        "reaches_memory, example trim_both",
    "WorldFault": "component_world, example can_use_slot_1, example summary",
    "PlanFault": "plan, plan_explain, planned_world, plan_failing, plan_without_lowerings, example printed_plan",
    "ToolFault": "each_put_failing",
    "PutFailed": "writer_sink",
    "RunFault": "run_program",
    "Usage": "parse",
    "WhyFault": "wcwhy, wcwhy_failing",
    "ProgramFault": "wcplan, wcplan_failing",
    "NoCommand": "parse_wcplan",
    "MessageFault": "plan_into, world_into, validate_into, record_into, message_fault",
    "ComponentFault": "component_paths_into, component_imports_into",
}
# The enums of other faults that such calls answer too.
OTHERS = {"ComponentFault": "MessageFault"}
CALLS = {call: enum for enum, calls in ANSWERED.items() for call in calls.split(", ")}


def listed(reasons):
    """The reason of each variant of an enum, of a table that has the variants by their reasons."""
    return {tuple(it.split("::")): why for why, names in reasons.items() for it in names.split()}


# The faults that have no text of their own, by what rows show of them.
STATED = {
    "PutFailed": ("wc_texts", [("PutFailed", "PutFailed", [])]),
    "Usage": ("wctrim_command", [("Usage", "usage", [])]),
    "NoCommand": ("wc_options", [("Memory", "out of memory", []), ("Help", "help", []), ("Version", "version", []),
                                     ("Wrong", "{0}", ["WrongArgument"])]),
}
# The calls that list the texts of all faults of an enum.
LISTS = {
    "read_faults": "ReadFault", "write_faults": "WriteFault", "dedupe_faults": "DedupeFault", "gc_faults": "GcFault",
    "command_faults": "ToolFault", "resolve_faults": "ResolveFault", "encoder_faults": "EncoderFault", "json_faults": "JsonFault",
    "validate_faults": "ValidateFault", "world_faults": "WorldFault", "plan_faults": "PlanFault", "request_faults": "RequestFault",
    "selection_faults": "SelectionFault",
}
# The faults that no such call can make.
UNLISTED = {("ValidateFault", "AdapterModuleDidNotExport")}
# What no row of any input can reach, and why.
BARRED = listed({
    "a section, or a body, of 2^32 bytes": "WriteFault::TooLarge",
    "a section of 2^32 bytes": "DedupeFault::TooLarge GcFault::TooLarge",
    "of the arguments of a name the first counts": "ValidateFault::WholeDiffers ValidateFault::Mixed",
    "none but memory is known to come of an adapter that was trimmed": "ProgramFault::Ways ComponentFault::Ways",
})
FAILED = "where an allocation fails"
# The enums whose faults have places.
PLACED = ("ReadFault", "DedupeFault", "ResolveFault", "ValidateFault", "GcFault", "WorldFault", "PlanFault")
# Which of their faults have none, and why.
UNPLACED = listed({
    "an allocation failed":
        "ReadFault::Memory DedupeFault::Memory ResolveFault::Memory ValidateFault::Memory GcFault::Memory WorldFault::Memory "
        "PlanFault::Memory",
    "it is answered for no module": "ReadFault::BadNesting ValidateFault::WholeDiffers ValidateFault::Mixed",
    "no row has so many imports": "ReadFault::TooLarge",
    "it is about the adapter as a whole": "GcFault::TooLarge",
    "it is about what is made of the module": "DedupeFault::TooLarge",
    "it has the export's name": "GcFault::MissingExport",
    "it is about all that is live":
        "GcFault::SeveralNamed GcFault::LiveTable GcFault::SeveralMemories GcFault::LocalMemory GcFault::ReallocType "
        "GcFault::ReallocMemory",
    "it has that of the world's fault": "PlanFault::World",
    "it is about the sink": "PlanFault::Output",
})


# what wcwhy prints of a component whose sections can't be read
OF_SECTIONS = re.compile("error wcwhy: Read: [A-Za-z]+")


def faults():
    """Each enum of faults, and each struct that is one: its crate, and its variants."""
    found = dict(STATED)
    for (enum, crate), variants in texts_of_faults().items():
        found[enum] = (crate, variants)
    crates = product_crates()
    return dict(sorted(found.items(), key=lambda it: crates.index(it[1][0])))


def readings(known, enum, text):
    """The faults that a text of this enum shows, as pairs of an enum and a variant: the fault, and those that it carries."""
    if enum == "Problem":
        # after the path to the value
        text = text.rpartition(": ")[2]
    # of wcwhy the longest text first, since `no function {0}` fits a text of two lines too
    for name, shown, fields in sorted(known[enum][1], key=lambda it: -len(it[1]) if enum == "WhyFault" else 0):
        pattern = re.escape(shown)
        for number in range(len(fields)):
            pattern = pattern.replace(re.escape("{%d}" % number), "(?P<f%d>.*)" % number)
        match = re.fullmatch(pattern, text, re.S)
        if not match:
            continue
        inner = [readings(known, field, match.group("f%d" % number))
                 for number, field in enumerate(fields) if field in known]
        if all(inner):
            return [(enum, name)] + [fault for part in inner for fault in part]
    return None


def rows():
    """Each row that calls something: its file, its name, the words of its call and its lines of answer."""
    for path in row_files():
        for row in rows_of(path):
            if row.call:
                yield str(path.relative_to(TOP)), row.name, [row.call, *row.arguments], row.answer


def texts_in_buffer(lines):
    """The text of a fault in the front of a buffer that has room for it, and for what is after it."""
    numbers = re.match(r"status 1 fault \d+ length (\d+) ", lines[0])
    buffer = bytes.fromhex("".join(line[len("buffer "):] for line in lines if line.startswith("buffer ")))
    if numbers and int(numbers.group(1)) <= len(buffer):
        yield buffer[:int(lines[1][len("position "):])].decode()


def texts(call, lines):
    """The texts of faults among a row's lines of answer."""
    if call.endswith("_into"):
        yield from texts_in_buffer(lines)
        return
    for line in lines:
        if call == "run_program" and line.startswith("printed wctrim: "):
            yield line[len("printed wctrim: "):]
        elif call in ("wcwhy", "wcwhy_failing") and line.startswith("error wcwhy: "):
            yield line[len("error wcwhy: "):]
            if not any(it.startswith("error usage: ") for it in lines):
                yield "\\n".join(it[len("error "):] for it in lines if it.startswith("error "))[len("wcwhy: "):]
        elif call in ("wcplan", "wcplan_failing") and re.match("error wcplan: (?!warning: )", line) and "status 2" not in lines:
            yield re.sub(r"(PageSize) `.*`: page size \d+, main module's \d+$", r"\1", line[len("error wcplan: "):])
        elif call == "parse_wcplan" and line in ("help", "version"):
            yield line
        elif call == "parse" and line == "usage":
            yield line
        elif call == "writer_sink" and line.startswith("fault "):
            yield line[len("fault "):].split(",")[0]
        else:
            match = re.match(r"(?:.*[:,] )?fault (.*)", line)
            if match and call not in ("run_program", "parse", "writer_sink", "wcplan", "wcplan_failing", "wcwhy", "wcwhy_failing"):
                yield match.group(1)


def has_place(words, lines):
    """Whether a row's answer has a place after the fault."""
    if words[0] in ("wcplan", "wcplan_failing"):
        return any(line.startswith("error   ") for line in lines)
    if words[0] in ("plan", "plan_failing", "plan_without_lowerings"):
        return lines[1:2] != [] and lines[1].startswith("of ")
    return (words[0] in ("explain_read", "explain_dedupe", "explain_trim", "plan_explain") or "explain" in words[1:]) \
        and len(lines) > 1 and lines[-1] != "none"


def reached(known):
    """For each fault the row that reaches it: the first whose call answers it, or otherwise the first that answers a fault that
    carries it; likewise the row that shows its place. And lines on texts that no fault of the call has."""
    found, places, unread = {}, {}, []
    for file, name, words, lines in rows():
        call = " ".join(words[:2]) if words[0] == "example" else words[0]
        if call not in CALLS:
            continue
        # with status 2 `wcwhy` says which argument is wrong
        enum = "WrongArgument" if call.startswith("wcwhy") and "status 2" in lines else CALLS[call]
        # the fault of a module has a second line
        if len(lines) == 2 and OF_SECTIONS.fullmatch(lines[0]):
            enum = "FileFault"
        for text in texts(call, lines):
            faults_shown = readings(known, enum, text) or (enum in OTHERS and readings(known, OTHERS[enum], text))
            if not faults_shown:
                unread.append("%s: %s: no fault of `%s`: %s" % (file, name, call, text))
            for depth, fault in enumerate(faults_shown or []):
                for by_fault in [found] + ([places] if has_place(words, lines) else []):
                    if fault not in by_fault or depth < by_fault[fault][0]:
                        by_fault[fault] = (depth, file, name)
    return found, places, unread


def unlisted(known):
    """Lines on faults that the row which lists those of their enum lacks."""
    for _, name, words, lines in rows():
        enum = LISTS.get(words[0])
        if enum:
            texts_there = [re.sub(r"^\d+ ", "", line) for line in lines]
            there = {faults_there[0] for faults_there in (readings(known, enum, text) for text in texts_there) if faults_there}
            for own, _, _ in known[enum][1]:
                if (enum, own) not in there | UNLISTED:
                    yield "%s lists no `%s::%s`" % (name, enum, own)


def shown(enum, crate, variants, name):
    """How a fault is named."""
    return "%s of %s" % (enum if len(variants) == 1 and name == enum else "%s::%s" % (enum, name), crate)


def fault_table(known, found):
    """The lines of the list of faults, and lines on those that have no row."""
    lines, wrong = ["# each fault, and a row that results in it\n"], []
    for enum, (crate, variants) in known.items():
        for name in dict.fromkeys(name for name, _, _ in variants):
            if name == "Memory":
                where = FAILED
            elif (enum, name) in found:
                where = "%s: %s" % found[enum, name][1:]
            elif (enum, name) in BARRED:
                where = "none: " + BARRED[enum, name]
            else:
                wrong.append("no row reaches `%s::%s`" % (enum, name))
                where = "none"
            lines.append("%s -- %s\n" % (shown(enum, crate, variants, name), where))
    return "".join(lines), wrong


def place_table(known, places):
    """The lines of the list of places, and lines on faults of which no row shows one, or one that there is not."""
    lines, wrong = ["# each fault that may have a place, and a row that shows it\n"], []
    for enum in PLACED:
        crate, variants = known[enum]
        for name, _, _ in variants:
            if (enum, name) in UNPLACED:
                where = "none: " + UNPLACED[enum, name]
                if (enum, name) in places and (enum, name) != ("PlanFault", "World"):
                    wrong.append("%s: %s shows a place of `%s::%s`" % (places[enum, name][1:] + (enum, name)))
            elif (enum, name) in places:
                where = "%s: %s" % places[enum, name][1:]
            else:
                wrong.append("no row shows a place of `%s::%s`" % (enum, name))
                where = "none"
            lines.append("%s -- %s\n" % (shown(enum, crate, variants, name), where))
    return "".join(lines), wrong


DERIVED = re.compile(r'#\[error\("((?:[^"\\]|\\.)*)"\)\]\n(?:\s*(?:///|#)[^\n]*\n)*\s*(\w+)')


@functools.cache
def enums_of(crate):
    """The public enums of a crate's sources, each with its variants as they are written."""
    return [enum for path in files_of(crate, "src", ".rt")
            for enum in re.findall(r"^pub(?:\([^)]*\))? enum (\w+)[^{]*\{\n(.*?)^\}", path.read_text(encoding="utf-8"), re.M | re.S)]


def unlike():
    """Lines on variants whose text for `Display` (`#[error("..")]`) is none of those that the definitions give."""
    texts = {crate: {} for _, crate in texts_of_faults()}
    for (enum, crate), variants in texts_of_faults().items():
        for variant, shown, _ in variants:
            texts[crate].setdefault((enum, variant), set()).add(shown)
    for crate in texts:
        for enum, body in enums_of(crate):
            for shown, variant in DERIVED.findall(body):
                known = texts[crate].get((enum, variant))
                # what is carried has the whole text itself
                if known and shown != "{0}" and shown.replace('\\"', '"') not in known:
                    yield f"{enum}::{variant} of {crate}: Display has `{shown}`, and FaultText {', '.join(sorted(known))}"


# Tables on pages

DOCUMENTED = re.compile(r"((?:^ *///.*\n)+)(?: *#\[.*\n)* *(\w+)", re.M)
HINT = re.compile(r"(\w+)::([\w ]+): (.+)")


def hints():
    """What to do about each fault that the file of hints names."""
    found = {}
    for line in HINTS.read_text(encoding="utf-8").splitlines():
        hint = HINT.fullmatch(line)
        if hint:
            found.update({(hint[1], name): hint[3] for name in hint[2].split()})
        elif line and not line.startswith("#"):
            sys.exit("checks/fault-hints.txt: no hint: " + line)
    return found


def causes(enum, crate):
    """The docs of each variant of an enum as cells of a table; up to their colon, if they are too long for a page."""
    for docs, variant in DOCUMENTED.findall(dict(enums_of(crate))[enum]):
        text = " ".join(re.sub(r"^///", "", line.strip()).strip() for line in docs.splitlines()).rstrip(".")
        text = text.partition(": ")[0] if len(text.split()) > MOST_WORDS else text
        yield variant, text[0].lower() + text[1:]


def quoted(text):
    """A text as code of a page."""
    return "`` %s ``" % text if text.endswith("`") else "``%s``" % text if "`" in text else "`%s`" % text


def page_table(known, of_user, enum, title, before):
    """A table of the faults of an enum: the printed text, the cause, and what to do, which isn't repeated in full."""
    crate, variants = known[enum]
    texts_of = {name: text.format(*("NAME" if it == "String" else "FAULT" for it in types)) for name, text, types in variants}
    lines, firsts = ["| %s | Cause | What to do |" % title, "|---|---|---|"], {}
    for name, cause in causes(enum, crate):
        if name == "Memory":
            continue
        hint = of_user.get((enum, name), "")
        first = firsts.setdefault(hint, name)
        cells = quoted(before + texts_of[name]), cause, hint if first == name else "as for " + quoted(texts_of[first])
        lines.append("| %s |" % " | ".join(it.replace("|", "\\|") for it in cells))
    return "\n".join(lines) + "\n"


def pages(known):
    """Each page with its tables as they have to be, and lines on faults without a hint, and on hints that are of no fault."""
    of_user, made = hints(), {}
    for enum, page, title, before in TABLES:
        marks = "<!-- faults of %s: checks/fault-rows.py -->\n" % enum, "<!-- end of faults of %s -->\n" % enum
        text = made.get(page) or (TOP / page).read_text(encoding="utf-8")
        made[page] = put_between(text, *marks, page_table(known, of_user, enum, title, before))[0]
    wanted = {(enum, name) for enum, *_ in TABLES for name, _, _ in known[enum][1] if name != "Memory"}
    wrong = ["checks/fault-hints.txt has nothing on `%s::%s`" % it for it in sorted(wanted - of_user.keys())]
    return made, wrong + ["checks/fault-hints.txt: no table has `%s::%s`" % it for it in sorted(of_user.keys() - wanted)]


def tables(known):
    """The lists as a text, and lines on what is wrong: faults that have no row, and texts that are those of no fault."""
    found, places, wrong = reached(known)
    (faults_text, without), (places_text, unplaced) = fault_table(known, found), place_table(known, places)
    return faults_text + "\n" + places_text, [*wrong, *unlisted(known), *unlike(), *without, *unplaced]


def main():
    parser = argparse.ArgumentParser(description=__doc__, formatter_class=argparse.RawDescriptionHelpFormatter)
    how = parser.add_mutually_exclusive_group()
    how.add_argument("--write", action="store_true")
    how.add_argument("--check", action="store_true")
    given = parser.parse_args()
    known = faults()
    made, wrong = tables(known)
    with_tables, without = pages(known)
    wrong += without
    other = [name for name, text in with_tables.items() if (TOP / name).read_text(encoding="utf-8") != text]
    if given.write:
        FILE.write_text(made)
        for name in other:
            (TOP / name).write_text(with_tables[name], encoding="utf-8")
    elif not given.check:
        print(made)
    else:
        wrong += [name + " has other tables: checks/fault-rows.py --write" for name in other]
        if not FILE.exists() or FILE.read_text() != made:
            wrong.append("checks/fault-rows.txt has other lists: checks/fault-rows.py --write")
    for line in wrong:
        print(line)
    sys.exit(1 if wrong else 0)


if __name__ == "__main__":
    main()
