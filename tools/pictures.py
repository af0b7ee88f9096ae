#!/usr/bin/env python3
"""Makes the pictures in docs/pictures, which the pages show, and compares them with what they are made of.

    tools/pictures.py [--write] [NAME ..]

Without --write it prints a line for each picture that is out of date; the status is then 1. Graphviz draws all but `speed`.

    NAME            made of
    paths, why      paths.dot and why.dot beside them, which hold what `wcwhy --dot` of examples/words.wasm and `wcwhy --import
                    wasi:filesystem/preopens --dot` of the component of examples/wasi printed, drawn by Graphviz. Where that is
                    missing, or of another version than drew the picture, only the graph that it was drawn of is compared
    instantiation   the lines of the plan of examples/wcplan, on examples/README.md
    crates          crates.txt, and the table of costs and the longest chain on docs/MAP.md
    trimming        examples/adapter.wat and examples/trimmed.wat
    speed           bench/figures.json, and the times beside other tools on docs/PERFORMANCE.md
"""
import argparse
import hashlib
import json
import re
import shutil
import subprocess
import sys
from xml.sax.saxutils import escape

from repository import TESTS, TOP, costs_on, read, used_by_crates

sys.path.append(str(TOP / "checks"))
from budget import expected_minutes, function_counts, longest_chain

FOLDER = TOP / "docs" / "pictures"
# of bars, in pixels
WIDTH = 880


# Graphs, drawn by Graphviz

# the fill and the border of boxes
COLOURS = {"plain": ("#ffffff", "#555555"), "blue": ("#dfe8f7", "#3b5b92"), "orange": ("#f7e6d5", "#a86a2c"),
           "green": ("#e0f0e0", "#3f7d46"), "grey": ("#f4f4f4", "#b5b5b5")}
INK, FAINT = "#222222", "#8a8a8a"


def graphviz_version():
    if not shutil.which("dot"):
        return None
    said = subprocess.run(["dot", "-V"], capture_output=True, text=True, check=True).stderr
    return re.search(r"version (\S+)", said)[1]


def drawn_by_graphviz(graph, direction):
    options = ["-Nfontsize=13", "-Nheight=0.3", "-Nmargin=0.06,0.04", "-Granksep=0.28", "-Gnodesep=0.15", "-Nfontname=Helvetica",
               "-Gfontname=Helvetica", "-Grankdir=" + direction, "-Tsvg"]
    drawn = subprocess.run(["dot", *options], input=graph, capture_output=True, text=True, check=True).stdout
    return drawn.replace("<svg ", "<!-- %s -->\n<svg " % mark_of(graph), 1)


def mark_of(graph):
    return "drawn of " + hashlib.sha256(graph.encode()).hexdigest()[:16]


def drawn(name, graph, direction="TB"):
    """The picture of a graph; the one that is there, if only the version of Graphviz is another one."""
    path, version = FOLDER / (name + ".svg"), graphviz_version()
    there = path.read_text(encoding="utf-8") if path.exists() else ""
    was = re.search(r"graphviz version (\S+)", there)
    if mark_of(graph) in there and (version is None or not was or was[1] != version):
        return there
    if version is None:
        raise SystemExit("tools/pictures.py: %s is out of date, and dot is missing: apt-get install graphviz" % path.name)
    return drawn_by_graphviz(graph, direction)


def of_program(name):
    """The picture of a graph that a program printed."""
    return drawn(name, read(FOLDER / (name + ".dot")))


def box(name, label, colour, *more):
    """A node of a graph."""
    fill, border = COLOURS[colour]
    style = "filled,dashed" if colour == "grey" else "filled"
    words = [f"label={json.dumps(label)}", f'style="{style}"', f'fillcolor="{fill}"', f'color="{border}"', *more]
    return f'{json.dumps(name)} [{", ".join(words)}];'


def graph(lines, label):
    """The text of a graph of boxes, with a label under it."""
    return "\n".join(["digraph {", f'  label={json.dumps(label)}; fontsize=12; node [shape=box]; edge [arrowsize=0.6, fontname=Helvetica];',
                      *("  " + line for line in lines), "}", ""])


def cluster(name, label, lines):
    return [f"subgraph cluster_{name} {{", f'  label={json.dumps(label)}; color="{FAINT}";', *("  " + line for line in lines), "}"]


def instantiation():
    """Shims with slots, the main module, the adapter, the fix-up and the host, in the order of their instantiation; by the
    plan of examples/wcplan on examples/README.md."""
    plan = re.findall(r"^ *(main|adapter) ?\S* my:notes/store@1\.2\.0 (\S+) sync slot (\d+) realloc (\S+)$", read("examples", "README.md"), re.M)
    lines, host = [], ["host: my:notes/store@1.2.0, lowered once main's memory is there"]
    for who, function, slot, realloc in plan:
        lines.append(box("slot " + slot, f"slot {slot}  {function}", "blue"))
        host.append(f"slot {slot}: canon lower {function}, memory{'' if realloc == '-' else ' + ' + realloc}")
    # the adapter's export that the main module imports needs a shim too, which is no line of the plan
    lines.append(box("length_of", "length_of", "orange"))
    made = cluster("shims", "1  shims: a table, and functions that call its entries, which trap until they are filled", lines)
    made += [box("main", "2  main module: main.wasm\nexports memory, cabi_realloc", "green"), box("fix-up", "4  fix-up\nan element segment fills the table", "green"),
             box("adapter", "3  adapter: old-notes\nexports cabi_import_realloc, length_of", "green"), box("host", "\n".join(host), "orange")]
    made += [f'"slot {slot}" -> {who};' for who, _, slot, _ in plan] + ["length_of -> main;"]
    made += ['main -> adapter [label="memory, cabi_realloc", fontsize=11];', 'adapter -> "fix-up" [label="length_of", fontsize=11];',
             'host -> "fix-up" [label="lowered functions", fontsize=11];']
    return drawn("instantiation", graph(made, "An arrow goes from an export to the module that imports it."))


def crates():
    """The crates as boxes, each on the lowest floor above its libraries, with the minutes of its proof: measured, or expected."""
    used, measured, floors = used_by_crates(), costs_on(read("docs", "MAP.md")), {}
    expected = expected_minutes(function_counts(), used)
    minutes = {crate: measured[crate][0] if crate in measured else expected[crate] for crate in used}
    chain = longest_chain(minutes, used)
    for crate, libraries in used.items():
        floors[crate] = 1 + max((floors[name] for name in libraries if name in floors), default=0)
    lines = []
    for floor in range(1, max(floors.values()) + 1):
        lines += ["{ rank=same;", f'  {floor} [shape=plaintext, fontcolor="{FAINT}"];']
        for crate in (crate for crate in used if floors[crate] == floor):
            colour = "orange" if crate in chain else "plain" if TESTS.match(crate) else "blue"
            label = "%s\n%s%.1f" % (crate, "" if crate in measured else "about ", minutes[crate])
            lines.append("  " + box(crate, label, colour, *(["penwidth=2"] if crate in chain else [])))
        lines.append("}")
    lines += [" -> ".join(map(str, range(1, max(floors.values()) + 1))) + " [style=invis];", " -> ".join(chain) + f' [color="{COLOURS["orange"][1]}"];']
    label = ("A crate uses only crates of lower floors. In each: processor minutes of its proof. "
             "Orange: the longest chain, %.0f minutes. White: tests." % sum(minutes[crate] for crate in chain))
    return drawn("crates", graph(lines, label), "BT")


def items_of(file):
    """The functions of a module as text, in the order of indices, and then its globals: the kind and the label of each, the
    name under which it is imported or exported, `import`, `export` or nothing, and the items that it names."""
    text = re.sub(r";;.*", "", read("examples", file))
    exported = {label: name for name, label in re.findall(r'\(export "([^"]+)" \(func \$(\w+)\)\)', text)}
    functions, variables = [], []
    for part in re.split(r"\n  \((?=import|global|func|memory|export|start|type)", text):
        imported = re.match(r'import "[^"]+" "([^"]+)" \(func \$(\w+)', part)
        defined = re.match(r'func (?:\$(\w+) *)?(?:\(export "([^"]+)"\))?', part)
        if imported:
            functions.append((("func", imported[2]), imported[1], "import", []))
        elif defined:
            named = [("func" if how == "call" else "global", name)
                     for how, name in re.findall(r"(call|global)(?:\.[gs]et)? \$(\w+)", part)]
            named += [("memory", "memory")] if re.search(r"i32\.load|memory\.", part) else []
            label, shown = defined[1] or defined[2], defined[2] or exported.get(defined[1])
            functions.append((("func", label), shown or label, "export" if shown else "", list(dict.fromkeys(named))))
        elif part.startswith("global"):
            label = re.match(r"global \$(\w+)", part)[1]
            variables.append((("global", label), label, "", []))
    return [*functions, *variables, (("memory", "memory"), "", "import", [])]


def indexed(items):
    """The kinds of items with their indices, and their names."""
    counts, texts = {}, {}
    for item, name, _, _ in items:
        counts[item[0]] = counts.get(item[0], -1) + 1
        texts[item] = "%s %d" % (item[0], counts[item[0]]), name
    return texts


def trimming():
    """An adapter, what its required export reaches, and its image."""
    adapter, image = items_of("adapter.wat"), items_of("trimmed.wat")
    old, new, names = indexed(adapter), indexed(image), {item: named for item, _, _, named in adapter}
    live, found = set(), [item for item, _, how, _ in image if how == "export"]
    while found:
        live.update(found)
        found = [other for item in found for other in names[item] if other not in live]
    lines = []
    for item, named in names.items():
        label = "  ".join(old[item]) + (f"\nin the image {new[item][0]}" if item in live else "")
        lines.append(box(old[item][0], label, "blue" if item in live else "grey"))
        lines += [f'"{old[item][0]}" -> "{old[other][0]}"' + ("" if item in live else f' [style=dashed, color="{FAINT}"]') + ";" for other in named]
    lines += [box("new " + text[0], f"{text[1]}\nin the image {text[0]}", "orange") for item, text in new.items() if item not in live]
    return drawn("trimming", graph(lines, "Blue: reached from the required export size_of. Grey: left out. Orange: added to allocate a stack."), "LR")


# Figures


SHAPES = {
    "chain": "functions, each calls one after it", "backward": "functions, each calls one before it",
    "shuffled": "functions, each calls any other", "exports": "exports", "imports": "imported functions",
    "globals": "globals with initialisers", "types": "types", "body": "one body", "memory": "loads and stores in one body",
    "blocks": "nested blocks in one body", "labels": "labels of a br_table", "calls": "calls, each of another function",
    "call": "calls of one function", "repeats": "dedupe: imports of one name", "mixed": "dedupe: imports of 5,000 names"}
SECONDS = {"s": 1, "ms": 1e-3, "µs": 1e-6}


def peers():
    """The tasks on docs/PERFORMANCE.md with a time beside that of a tool `wasm-..`: both as written and in seconds, and the tool."""
    for task, time, unit, tool, other, its_unit in re.findall(
            r"^\| (.*?) \| ([\d.]+) (s|ms|µs) \| .*?`(wasm-[\w-]+)`.*? ([\d.]+) (s|ms|µs) \|$", read("docs", "PERFORMANCE.md"), re.M):
        yield (re.sub(r"\[([^\]]*)\]\([^)]*\)", r"\1", task), "%s %s" % (time, unit), float(time) * SECONDS[unit], tool,
               "%s %s" % (other, its_unit), float(other) * SECONDS[its_unit])


class Bars:
    """A picture of bars and texts, as SVG."""

    def __init__(self, width, height, title):
        self.lines = [f'<svg xmlns="http://www.w3.org/2000/svg" width="{width}" height="{height}" viewBox="0 0 {width} {height}" '
                      'font-family="Helvetica, Arial, sans-serif">', f"<title>{escape(title)}</title>",
                      f'<rect width="{width}" height="{height}" fill="white"/>']

    def box(self, x, y, width, height, colour):
        fill, border = COLOURS[colour]
        self.lines.append(f'<rect x="{x}" y="{y}" width="{width:.1f}" height="{height}" rx="3" fill="{fill}" stroke="{border}"/>')

    def text(self, x, y, text, size=12, anchor="start", colour=INK, bold=False):
        weight = ' font-weight="bold"' if bold else ""
        self.lines.append(f'<text x="{x:.1f}" y="{y}" font-size="{size}" text-anchor="{anchor}" fill="{colour}"{weight}>{escape(text)}</text>')

    def svg(self):
        return "\n".join([*self.lines, "</svg>", ""])


def speed():
    """Instructions of each shape beside its floor, and times beside those of other tools; nothing without figures."""
    path = TOP / "bench" / "figures.json"
    figures = json.loads(path.read_text(encoding="utf-8")).get("trimming", {}) if path.exists() else {}
    rows = [(SHAPES.get(shape, shape), row) for shape, row in figures.get("rows", {}).items() if "instructions" in row]
    if not rows:
        return None
    tasks, left, right, height = list(peers()), 236, WIDTH - 66, 27
    most = max(max(row["instructions"], row["floor"]) for _, row in rows)
    made = Bars(WIDTH, 66 + len(rows) * height + (52 + len(tasks) * 46 if tasks else 0), "Figures of docs/PERFORMANCE.md as bars")
    made.text(12, 22, "Millions of instructions, %s" % figures["date"], 13, bold=True)
    for x, colour, text in ((330, "blue", "this program"), (500, "orange", "its floor, a C program that writes the same")):
        made.box(x, 12, 12, 11, colour)
        made.text(x + 18, 22, text)
    y = 36
    for name, row in rows:
        made.text(left - 10, y + 15, name, anchor="end")
        for at, (key, colour, high) in enumerate((("instructions", "blue", 11), ("floor", "orange", 8))):
            width = max(1, (right - left) * row[key] / most)
            made.box(left, y + 3 + at * 12, width, high, colour)
            made.text(left + width + 5, y + 12 + at * 11, "%.1f" % row[key], 10, colour=INK if at == 0 else FAINT)
        y += height
    if tasks:
        made.text(12, y + 30, "Time beside another tool; each pair has a scale of its own", 13, bold=True)
        y += 40
    for task, time, seconds, tool, other, other_seconds in tasks:
        made.text(12, y + 18, task)
        for at, (text, value, colour) in enumerate(((time, seconds, "blue"), ("%s  %s" % (other, tool), other_seconds, "grey"))):
            width = max(1, (right - 430) * value / max(seconds, other_seconds))
            made.box(320, y + 6 + at * 16, width, 12, colour)
            made.text(326 + width, y + 16 + at * 16, text, 11)
        y += 46
    return made.svg()


PICTURES = {"paths": lambda: of_program("paths"), "why": lambda: of_program("why"), "instantiation": instantiation, "crates": crates,
            "trimming": trimming, "speed": speed}


def main():
    parser = argparse.ArgumentParser(description=__doc__, formatter_class=argparse.RawDescriptionHelpFormatter)
    parser.add_argument("--write", action="store_true")
    parser.add_argument("names", nargs="*", metavar="NAME")
    given = parser.parse_args()
    unknown = [name for name in given.names if name not in PICTURES]
    if unknown:
        parser.error("no picture is called " + unknown[0])
    wrong = 0
    for name in given.names or PICTURES:
        path, made = FOLDER / (name + ".svg"), PICTURES[name]()
        there = path.read_text(encoding="utf-8") if path.exists() else None
        if made == there:
            continue
        if given.write and made is not None:
            path.write_text(made, encoding="utf-8")
        else:
            print("docs/pictures/%s.svg is out of date: tools/pictures.py --write" % name)
            wrong = 1
    return wrong


if __name__ == "__main__":
    sys.exit(main())
