#!/usr/bin/env python3
"""Checks that definitions mirror the code: a file of src/ and its file of specs/ have one name.

    checks/mirror.py [--all]

A source file has definitions of its own if its contracts cite definitions of its crate that no other source file cites. Then
specs/, or a folder there, has a file of its name with some of them: `key_names.rt` has `KeyNames.antt`, and `imports/map.rt`
has `Imports/Map.antt` or `Map.antt`. A file in a folder may share that of the file above it. Printed is each other source
file, with the files that have its definitions and the reason. The status is 1 if a reason is missing, or is of no use. --all
prints for each source file which file mirrors it.
"""
import argparse
import collections
import pathlib
import sys

sys.path.append(str(pathlib.Path(__file__).resolve().parent.parent / "tools"))
from repository import TOP, files_of, imports_of, used_by_crates

# why source files have no file of their name in specs/
REASONS = {
    "a rule of well-formed parts: `WellFormed` has all, in the order of their faults":
        "wc_resolve/validate/cases wc_resolve/validate/keys wc_resolve/validate/naming wc_resolve/validate/spelling",
    "the first part that breaks a rule: `Refusals` has what is answered, `Explain` what a place says": "wc_resolve/validate/first",
    "the texts of numbers, types and imports are one definition over another, in `Text`": "wc_write/imports wc_write/numbers wc_write/types",
    "a part of what another source file defines or tests, beside the rest of it":
        "wc_read/distinct wc_read/section_contents wc_read/stops wc_write/inits wc_resolve/canonical_ids wc_resolve/flattening wc_resolve/functions wc_resolve/validate/order "
        "wc_resolve/validate/type_test wc_resolve/walk wc_write/contents wc_write/module_sections wc_encoder/well_formed wc_names/payloads "
        "wc_names/standard wc_validate/exports/first_singles wc_validate/name_fault wc_validate/signatures wc_gc/assemble wc_gc/ranks "
        "wc_paths/counts wc_paths/names wc_world/import_map wc_plan/lowerings "
        "wc_component_file/laws wc_module_ways/core_tree wc_module_ways/shared",
    "the tree of a world is in `WaysTree`, with its texts": "wc_ways/tree",
    "what all parts of imports answer, and the kinds of these, are in `Functions` and `Kinds`":
        "wc_validate/imports/environment wc_validate/imports/root wc_validate/imports/scheme",
    "the stages of the program are in `Program` and `Inputs`, in their order, what private functions answer in `Private/Runs` and `Private/Causes`":
        "wcplan_inputs/documents wcplan/outputs",
    "what arguments say, and so what they give, is in `Reading`": "wc_options/given wcplan_inputs/arguments",
    "named after what it defines: the parts of an encoder, arguments, texts of faults, what was put, what is found, lists of renames":
        "wc_encoder/encoder nuigatre/lib wc_texts/fault_text wc_texts/pieces wc_dedupe/rename_list",
    "the chains of a search's tree are in `ShortestChains`": "wc_graph/tree",
    "the chains of an adapter's items are in `LiveChains`": "wc_gc/finders wc_gc/import_chains",
    "the links of a component are in `Graph`, those of a part in `Part`": "wc_why/links",
    "names without mangling are in `RustNames`": "wc_why_text/name_parts",
    "the lines of a tree are in `TreeLines`": "wc_why_text/way_items wc_why_text/way_lines",
    "the file of specs/ is in the plural: it has relations of many":
        "wc_component_file/file wc_component_file/main_module wc_import_paths/main_module wc_import_paths/part",
    "the names of functions are in `Names`": "wc_module_ways/functions",
}


def name_of(path):
    """The name of the file of specs/ that mirrors a source file: `imports/first_functions` has `Imports/FirstFunctions`."""
    return "/".join("".join(word.capitalize() for word in part.split("_")) for part in path.split("/"))


def citations(crate, text):
    """The definitions of a crate that a source file of it cites: each with the file of specs/ that has it."""
    for path, there, _ in imports_of(text):
        of, _, file = path.partition(".specs.")
        if of == crate and file.split(".")[0] not in ("", "declared", "contracts"):
            yield file.replace(".", "/"), there


def own_definitions(crate):
    """For each source file of a crate the definitions that it alone cites, by their files of specs/."""
    cited, sources = collections.defaultdict(set), {}
    for path in files_of(crate, "src", ".rt"):
        source = str(path.relative_to(TOP / "crates" / crate / "src"))[: -len(".rt")]
        sources[source] = set(citations(crate, path.read_text(encoding="utf-8")))
        for it in sources[source]:
            cited[it].add(source)
    for source, names in sources.items():
        own = collections.defaultdict(list)
        for file, name in sorted(names):
            if len(cited[file, name]) == 1:
                own[file].append(name)
        if own:
            yield source, own


def mirrors(source, files):
    """The files of specs/ that have the name of a source file, or of the one above it."""
    name = name_of(source)
    names = {name, name.rpartition("/")[2], name.rpartition("/")[0]} - {""}
    return [file for file in files if any(file == it or file.endswith("/" + it) for it in names)]


def main():
    parser = argparse.ArgumentParser(description=__doc__, formatter_class=argparse.RawDescriptionHelpFormatter)
    parser.add_argument("--all", action="store_true")
    given = parser.parse_args()
    reasons = {name: why for why, names in REASONS.items() for name in names.split()}
    used, wrong = set(), 0
    for crate in used_by_crates():
        files = [str(path.relative_to(TOP / "crates" / crate / "specs"))[: -len(".antt")] for path in files_of(crate, "specs", ".antt")]
        for source, own in own_definitions(crate):
            there = [file for file in mirrors(source, files) if file in own]
            if there:
                if given.all:
                    print(f"{crate} {source}: {', '.join(there)}")
                continue
            why = reasons.get(f"{crate}/{source}")
            used.add(f"{crate}/{source}")
            where = ", ".join(f"{file} ({len(names)})" for file, names in own.items())
            if why:
                print(f"{crate} {source}: {why}; of its own are {where}")
            else:
                wrong += 1
                print(f"{crate} {source}: NO file of its name in specs/, and no reason; of its own are {where}")
    for name in sorted(set(reasons) - used):
        wrong += 1
        print(f"{name}: a reason of no use")
    return 1 if wrong else 0


if __name__ == "__main__":
    sys.exit(main())
