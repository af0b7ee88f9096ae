"""Figures that are kept in bench/figures.json, and the tables made of them on docs/PERFORMANCE.md.

The figures of a script have a name, the date, the kit, the machine's load before the run, and rows by their names. On the page
their table is between two comments with that name.
"""
import datetime
import json
import pathlib
import re
import sys

TOP = pathlib.Path(__file__).resolve().parent.parent
FIGURES = TOP / "bench" / "figures.json"
PAGE = TOP / "docs" / "PERFORMANCE.md"
# what a row keeps when it is measured anew
KEPT = ("before",)


def read():
    """All figures; none where nothing was measured yet."""
    return json.loads(FIGURES.read_text(encoding="utf-8")) if FIGURES.exists() else {}


def heading(figures):
    """When, with which kit and beside what figures were measured."""
    date = datetime.date.fromisoformat(figures["date"])
    return "%d %s, `%s`, with a load of %.1f before the run." % (
        date.day, date.strftime("%B %Y"), figures["kit"], figures["load"])


def pattern(name):
    """The place of a table on the page: the comment before it, the table, the comment after it."""
    return re.compile(r"(?s)(<!-- %s: bench/\S+ -->\n\n)(.*?)(\n\n<!-- end of %s -->)" % (name, name))


def write(name, rows, load, table):
    """Keeps figures, with what the rows before had, and puts their table on the page."""
    held = read()
    before = held.get(name, {"rows": {}})["rows"]
    for title, row in rows.items():
        row.update({key: before[title][key] for key in KEPT if key in before.get(title, {})})
    kit = (TOP / "KIT").read_text(encoding="utf-8").split()[0]
    held[name] = {"date": datetime.date.today().isoformat(), "kit": kit, "load": round(load, 1), "rows": rows}
    FIGURES.write_text(json.dumps(held, indent=1) + "\n", encoding="utf-8")
    page = PAGE.read_text(encoding="utf-8")
    if not pattern(name).search(page):
        sys.exit("%s has no place for the table %s" % (PAGE, name))
    PAGE.write_text(pattern(name).sub(lambda it: it[1] + table(held[name]) + it[3], page), encoding="utf-8")


def check(name, table):
    """Compares the table on the page with the figures; the status is 1 where they differ."""
    found, figures = pattern(name).search(PAGE.read_text(encoding="utf-8")), read().get(name)
    if not found or not figures or found[2] != table(figures):
        print("docs/PERFORMANCE.md: the table %s is not that of bench/figures.json" % name)
        return 1
    print("%d rows" % len(figures["rows"]))
    return 0
