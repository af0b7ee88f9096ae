#!/usr/bin/env python3
"""Makes the man pages of the programs, and files by which bash completes their arguments, of their pages in docs.

    tools/man-pages.py            prints which files are other than they would be made, and which sections a man page names
                                  and lacks; status 1 where one is
    tools/man-pages.py --write    writes docs/NAME.1 and docs/NAME.bash

Of docs/WCTRIM.md, for example, the text up to the usage is the description, the usage the synopsis and what is completed;
each section follows, but those of SKIPPED, its tables as lists whose first column is what is looked up. Read them with
`man docs/wctrim.1`, and `source docs/wctrim.bash`. Of a link in brackets of its own, as `([how](#a-section))`, the man page
names the section, if it has that, and else nothing. Lines that are comments of HTML are left out.
"""
import argparse
import pathlib
import re
import sys

sys.path.append(str(pathlib.Path(__file__).resolve().parent))
from repository import TOP

PROGRAMS = "wctrim", "wcplan", "wcwhy"
# sections on the repository and not on the program
SKIPPED = "The script", "How to run it"
TITLES = {"Exit statuses": "EXIT STATUS", "Why an input is refused": "DIAGNOSTICS", "Faults": "DIAGNOSTICS"}
# the values of options that are files or directories
FILES = {"FILE": "-f", "[NAME=]FILE": "-f", "NAME=FILE": "-f", "DIR": "-d"}


def escaped(text):
    """A text for man, which reads backslashes, hyphens, and a point or a quote at the front of a line."""
    return re.sub(r"^([.'])", r"\\&\1", text.replace("\\", "\\e").replace("-", "\\-"))


LINK = r"\[((?:[^\]`]|`[^`]*`)*)\]\(([^)]*)\)"


def anchor_of(title):
    return re.sub(r"[^\w -]", "", title.lower()).replace(" ", "-")


def shown_sections(text):
    """The titles of sections, and of those in them, as the man page has them, by their anchors; without those of SKIPPED."""
    shown, is_skipped = {}, False
    for level, title in re.findall(r"(?m)^(##+) (.*)$", text):
        is_skipped = title in SKIPPED or is_skipped and level != "##"
        if not is_skipped:
            shown["#" + anchor_of(title)] = TITLES.get(title, title.upper()) if level == "##" else title
    return shown


def pointed(shown):
    """What a link in brackets of its own says, as `([how](#a-section))`: its section, if the man page has that; else nothing."""
    return lambda it: f" (see {shown[it[2]]})" if it[2] in shown else ""


def lacking(page):
    """The sections that a man page names and lacks."""
    titles = {title.strip('"') for title in re.findall(r"(?m)^\.S[HS] (.*)$", page)}
    return [it for it in re.findall(r"\(see ([^)]*)\)", page) if it not in titles]


def inline(text):
    """A text of a page: what is in backquotes and between asterisks is bold; of a link the text stays, and none of one in
    brackets of its own."""
    made, text = "", re.sub(LINK, r"\1", text.strip())
    for part in re.split(r"(``.+?``|`[^`]+`|\*\*[^*]+\*\*)", text):
        code = re.fullmatch(r"(``|`|\*\*)(.+?)\1", part)
        if code:
            # a blank on both sides is none of the code, as in Markdown; others stay
            own = re.sub(r"^ (.*[^ ].*) $", r"\1", code[2])
            made += "\\fB" + re.sub("^ +", lambda it: "\\ " * len(it[0]), escaped(own)) + "\\fR"
        else:
            made += escaped(part) if not made else part.replace("\\", "\\e")
    return made


def cells_of(line):
    return [it.strip().replace("\\|", "|") for it in re.split(r"(?<!\\)\|", line.strip().strip("|"))]


def table(lines):
    """A table as a list: the first column, and under it the others; from the third on with their titles."""
    titles, made = cells_of(lines[0]), []
    for line in lines[2:]:
        first, *others = cells_of(line)
        texts = [it if n == 0 else f"{title}: {it}" for n, (title, it) in enumerate(zip(titles[1:], others)) if it]
        made += [".TP", inline(first), inline(". ".join(it.rstrip(".") for it in texts) + ".")]
    return made


def block(lines):
    """A paragraph, an item, a table or a block of code."""
    if lines[0].startswith("|"):
        return table(lines)
    if all(it.startswith(("    ", "  " if "$" in lines[0] else "    ")) for it in lines):
        return [".PP", ".nf", ".RS 4", *(escaped(it[4:]) for it in lines), ".RE", ".fi"]
    text, made = "", []
    for line in lines:
        item = re.match(r"\s*(-|\d+\.) +(.*)", line)
        if item:
            made += [inline(text)] if text else []
            made += [f'.IP "{item[1]}" 4' if item[1] != "-" else ".IP \\(bu 2"]
            text = item[2]
        else:
            made += [".PP"] if not made and not text else []
            text += " " * bool(text) + line.strip()
    return [*made, inline(text)]


def blocks(text):
    """The paragraphs of a text; a fenced block is one, as if it were indented."""

    def indented(it):
        # in a list the fence is indented itself
        lines = re.sub(r"\n\s*\n", "\n", it[2].rstrip())
        return re.sub(r"(?m)^", "    ", re.sub(f"(?m)^{it[1]}", "", lines))

    text = re.sub(r"(?ms)^( *)```\w*\n(.*?)```", indented, text)
    return [it.split("\n") for it in re.split(r"\n\s*\n", text.strip("\n")) if it.strip()]


def page_of(name):
    """The parts of a program's page: its first sentence, its usage, and its sections with their titles."""
    text = re.sub(r"(?m)^<!--.*-->\n", "", (TOP / "docs" / (name.upper() + ".md")).read_text(encoding="utf-8"))
    text = re.sub(r" \(" + LINK + r"\)", pointed(shown_sections(text)), text)
    front, *sections = re.split(r"(?m)^## ", text.partition("\n")[2])
    usage = next("\n".join(it[4:] for it in lines) for lines in blocks(front) if lines[0].startswith("    usage: "))
    said = re.match(r"`%s` (.*?)\.(?= |\n)" % name, front.strip(), re.S)[1]
    return front, said, usage, [it.partition("\n")[::2] for it in sections]


def man_page(name):
    front, said, usage, sections = page_of(name)
    made = [f'.\\" Made by tools/man-pages.py of docs/{name.upper()}.md.', f'.TH {name.upper()} 1 "" "" "User Commands"']
    made += [".SH NAME", f"{name} \\- {inline(said)}", ".SH SYNOPSIS", ".nf"]
    made += [escaped(it[len("usage: ") :]) for it in usage.split("\n")] + [".fi", ".SH DESCRIPTION"]
    for lines in blocks(front):
        made += block(lines) if not lines[0].startswith("    usage: ") else []
    for title, text in sections:
        if title in SKIPPED:
            continue
        made += [f'.SH "{TITLES.get(title, title.upper())}"']
        for lines in blocks(text):
            heading = re.match(r"###+ (.*)", lines[0])
            made += [f'.SS "{heading[1]}"'] if heading else block(lines)
    return "\n".join(made) + "\n"


# What options of a program have for values that are no files: words, or lines of bash that set `what` to them.
VALUES = {
    ("wcplan", "--why"): "what=(-W \"all \\\\\\$root $(_wcplan_keys)\")",
    ("wcplan", "--export"): "what=(-W \"$(_wcplan_keys)\")",
    ("wcplan", "--adapter-export"): "what=(-W \"$(_wcplan_adapters)\"); compopt -o nospace",
}
# What these lines call: the ids of the interfaces in the first file of worlds on the line, and the names of its adapters. The
# shell expands a list of words, so a text of other signs than theirs is left out.
HELPERS = {"wcplan": """\
_wcplan_keys() {
    local each
    for each in "${COMP_WORDS[@]:1:COMP_CWORD-1}"; do
        [[ $each == *.json && -r $each ]] || continue
        python3 -c 'import json, re, sys
resolve = json.load(open(sys.argv[1]))
for package in resolve["packages"]:
    name, _, version = package["name"].partition("@")
    for interface in package["interfaces"]:
        key = name + "/" + interface + ("@" + version if version else "")
        print(key if re.fullmatch("[A-Za-z0-9:/@.+-]+", key) else "")' "$each" 2>/dev/null
        return
    done
}
_wcplan_adapters() {
    local each before=
    for each in "${COMP_WORDS[@]:1:COMP_CWORD-1}"; do
        [[ $each != = ]] || continue
        if [[ $before == --adapt ]]; then
            each=${each##*/}
            each=${each%%[.=]*}
            [[ $each == *[!A-Za-z0-9_:-]* ]] || printf '%s=\\n' "$each"
        fi
        before=$each
    done
}
"""}


def completion(name):
    """What completes the arguments of a program in bash: commands, options, and else files; after an option whose value is
    no file what VALUES says, else nothing."""
    usage = page_of(name)[2]
    commands = sorted(set(re.findall(r"%s ([a-z]+) [A-Z]" % name, usage)))
    options = {}
    for option, value in re.findall(r"(--[\w-]+)(?: ((?:\[NAME=\])?[A-Z][A-Z=]*|0\|16))?", usage):
        options.setdefault(option, value)
    made = [f"# Completes the arguments of {name} in bash. Made by tools/man-pages.py of docs/{name.upper()}.md."]
    made += [HELPERS[name].rstrip("\n")] if name in HELPERS else []
    made += [f"_{name}() {{", "    local word=${COMP_WORDS[COMP_CWORD]} what=(-f)"]
    made += [f"    [ \"$COMP_CWORD\" -gt 1 ] || what=(-W '{' '.join(commands)}')"] if commands else []
    made += ["    case ${COMP_WORDS[COMP_CWORD - 1]} in"]
    for option, value in options.items():
        asked = FILES.get(value) or (f"-W '{value.replace('|', ' ')}'" if "|" in value else "-W ''")
        made += [f"        {option}) {VALUES.get((name, option), f'what=({asked})')} ;;"] if value else []
    made += ["    esac", f"    [[ $word != -* ]] || what=(-W '{' '.join(options)}')"]
    made += ['    mapfile -t COMPREPLY < <(compgen "${what[@]}" -- "$word")']
    # a colon begins a new word for readline, so what is before it is not put again
    made += ["    ! declare -F __ltrim_colon_completions >/dev/null || __ltrim_colon_completions \"$word\""] if name in HELPERS else []
    made += ["}", f"complete -o filenames -F _{name} {name}"]
    return "\n".join(made) + "\n"


def main():
    parser = argparse.ArgumentParser(description=__doc__, formatter_class=argparse.RawDescriptionHelpFormatter)
    parser.add_argument("--write", action="store_true")
    given, other, lacked = parser.parse_args(), [], []
    for name in PROGRAMS:
        for ending, text in (".1", man_page(name)), (".bash", completion(name)):
            path = TOP / "docs" / (name + ending)
            if not path.exists() or path.read_text(encoding="utf-8") != text:
                other.append(path)
            if given.write:
                path.write_text(text, encoding="utf-8")
        other_names = lacking(man_page(name))
        for section in other_names:
            print(f"docs/{name}.1 names the section {section}, which it lacks")
        lacked += other_names
    for path in other if not given.write else []:
        print(f"docs/{path.name} is out of date: tools/man-pages.py --write")
    return 1 if lacked or other and not given.write else 0


if __name__ == "__main__":
    sys.exit(main())
