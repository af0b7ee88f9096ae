"""The calls give what the examples have, and end whatever is passed."""

import copy
import json
import multiprocessing
import pathlib
import pickle
import random
import threading

import pytest

import nuigatre
from nuigatre import Adapter, BadArgument, Chains, Fault, Function, Item, Rename

CHOICES = ["size_of", "write", "is-ready", "read_text", "cabi_import_realloc"]


@pytest.fixture
def notes(examples):
    """The component of examples/wcplan, with others in the place of its parts."""

    def made(worlds=None, main=None, adapter=None, exports=("is-ready",)):
        adapters = [Adapter("old-notes", adapter or examples("wcplan/adapter.wasm"), exports)]
        return worlds or examples("wcplan/notes.json"), "app", main or examples("wcplan/main.wasm"), adapters

    return made


def test_trim_gives_the_trimmed_adapter_of_the_examples(examples):
    trimmed = nuigatre.trim(examples("adapter.wasm"), ["size_of"], realloc="cabi_realloc")
    assert trimmed == examples("trimmed.wasm")
    assert nuigatre.trim(memoryview(examples("adapter.wasm")), {"size_of": 1}, realloc="cabi_realloc") == trimmed


def test_dedupe_renames_the_second_of_two_imports(examples):
    module, renames = nuigatre.dedupe(examples("duplicate-imports.wasm"))
    assert renames == [Rename("env", "log", "log [v2]")]
    assert b"log [v2]" in module
    assert nuigatre.dedupe(examples("adapter.wasm")) == (examples("adapter.wasm"), [])


def test_why_gives_the_chain_to_an_import(examples):
    chains = nuigatre.why(examples("adapter.wasm"), ["size_of"])
    found = [chains.to_import(number) for number in range(len(chains.imports))]
    assert [it is None for it in found] == [it is None for it in chains.imports]
    assert {it[0] for it in found if it} == {"size_of"}
    chain = Chains([Item("func", 3), Item("type", 0), Item("func", 2), Item("func", 0)], [0, 0, 0, 2], ["b"], [3, None])
    assert chain.to_import(0) == ("b", [Item("func", 3), Item("func", 2), Item("func", 0)])
    assert chain.to_import(1) is None


# imports and exports of each kind; `wasm-objdump -x` lists the same
KINDS = bytes.fromhex(
    "0061736d0100000001070160027f7e017d02260403656e760166000003656e760174017001010203656e76016d02000303656e760167037e01"
    "030201000719040372756e0001036d656d020003746162010003676c6f03000a05010300000b0013046e616d65010c0200036c6f6701046d61696e")


def test_scan_lists_imports_and_exports_of_each_kind_and_names_of_functions():
    func = {"params": ["i32", "i64"], "results": ["f32"]}
    table = {"element_type": "funcref", "table64": False, "initial": 1, "maximum": 2}
    memory = {"memory64": False, "shared": False, "initial": 3, "maximum": None, "page_size_log2": None}
    of_global = {"content_type": "i64", "mutable": True}
    assert nuigatre.scan(KINDS) == {
        "imports": [{"module": "env", "name": "f", "kind": "func", "type": func},
                    {"module": "env", "name": "t", "kind": "table", "type": table},
                    {"module": "env", "name": "m", "kind": "memory", "type": memory},
                    {"module": "env", "name": "g", "kind": "global", "type": of_global}],
        "exports": [{"name": "run", "kind": "func", "index": 1, "type": func},
                    {"name": "mem", "kind": "memory", "index": 0, "type": memory},
                    {"name": "tab", "kind": "table", "index": 0, "type": table},
                    {"name": "glo", "kind": "global", "index": 0, "type": of_global}],
        "function_names": [{"index": 0, "name": "log"}, {"index": 1, "name": "main"}]}
    with pytest.raises(Fault, match="^Truncated: byte 12$") as cut:
        nuigatre.scan(KINDS[:12])
    assert (cut.value.call, cut.value.number, cut.value.place) == (
        "scan", 3, {"kind": "bytes", "adapter": None, "offset": 12, "section": None})


# `f` of `a:b/c@1.0.0` is called by function 2, `telemetry`, which stands in a table; function 1, the export `run`, does nothing
TABLE = bytes.fromhex(
    "0061736d010000000104016000000211010b613a622f6340312e302e300166000003030200000404017000040707010372756e0001090701"
    "0041010b01020a090202000b040010000b0013046e616d65010c01020974656c656d65747279")


def test_paths_lead_to_the_imports_of_main_modules_with_names():
    steps = [{"kind": "fills", "space": "table", "index": 0},
             {"kind": "item", "space": "elem", "index": 0, "name": None},
             {"kind": "item", "space": "func", "index": 2, "name": "telemetry"},
             {"kind": "item", "space": "func", "index": 0, "name": None}]
    ways = [{"interface": "a:b/c@1.0.0", "name": "f", "steps": steps}]
    assert nuigatre.paths(TABLE) == ways
    marked = [steps[0], *({**step, "only": only} for step, only in zip(steps[1:], (True, True, False)))]
    assert nuigatre.paths(TABLE, exports=["run"], imports=["a:b/c"]) == [{**ways[0], "steps": marked}]
    assert nuigatre.paths(TABLE, imports=["a:b/c@1.0.0=g"]) == []
    with pytest.raises(Fault, match="^adapter module does not have export `other`$") as missing:
        nuigatre.paths(TABLE, exports=["run", "other"])
    assert (missing.value.call, missing.value.number, missing.value.missing) == ("paths", 2, "other")
    with pytest.raises(BadArgument):
        nuigatre.paths(TABLE, imports=["\ud800"])


def test_a_component_says_why_it_imports_what_it_does(notes):
    found = nuigatre.component_paths(*notes(), key="my:notes/store")
    assert "my:notes/store@1.2.0" in json.dumps(found)
    assert nuigatre.component_paths(*notes(), key="my:notes") == nuigatre.component_paths(*notes(), key="my:notes@1.2.0")
    imports = {it["interface"]: it["kind"] for it in nuigatre.component_imports(*notes())}
    assert imports["my:notes/store@1.2.0"] in ("main", "goes", "stays")
    with pytest.raises(Fault, match="^UnknownImport `my:notes/other`: imports ") as unknown:
        nuigatre.component_paths(*notes(), key="my:notes/other")
    assert (unknown.value.call, unknown.value.number) == ("component_paths", 16)
    assert (unknown.value.place["kind"], unknown.value.place["key"]) == ("imports", "my:notes/other")
    assert "my:notes/store@1.2.0" in unknown.value.place["imports"]
    with pytest.raises(BadArgument):
        nuigatre.component_paths(*notes(), key="\ud800")


def test_a_world_and_its_plan_are_those_of_the_examples(examples, notes):
    made = nuigatre.planned_world(*notes())
    assert made.main == examples("wcplan/main.wasm")
    assert made.adapters == {"old-notes": examples("wcplan/trimmed.wasm")}
    assert [(it["name"], it["slot"], it["realloc"]) for it in made.record["plan"]] == [
        ("[constructor]note", 0, None), ("[method]note.text", 1, "cabi_realloc"), ("[constructor]note", 2, None),
        ("summarize", 3, "cabi_import_realloc")]
    assert nuigatre.plan(*notes()) == made.record["plan"]
    lifted = [{"interface": None, "name": "print", "options": 7}, {"interface": None, "name": "is-ready", "options": 0}]
    assert made.record["export_options"] == lifted
    assert nuigatre.world(*notes()).record == {key: it for key, it in made.record.items() if key != "plan"}
    nuigatre.validate(*notes())
    nuigatre.validate(*notes(), adapter="old-notes")
    with pytest.raises(BadArgument):
        nuigatre.validate(*notes(), adapter="other")


def test_a_valid_module_has_the_record_that_the_world_has_of_it(notes):
    record = nuigatre.world(*notes()).record
    assert nuigatre.validated_module(*notes()) == record["info"]
    names = next(it for it in record["info"]["imports"] if it["module"] == "old-notes")["instance"]["names"]
    used = names[0]["import"]
    required = [Function(used["func"], used["type"]["params"], used["type"]["results"])]
    found = nuigatre.validated_module(*notes(), adapter="old-notes", required=required)
    assert {it["name"] for it in found["exports"]} == {it["name"] for it in record["adapters"][0]["info"]["exports"]}
    with pytest.raises(Fault):
        nuigatre.validated_module(*notes(), adapter="old-notes", required=[Function("other", ["f64"])])
    with pytest.raises(BadArgument):
        nuigatre.validated_module(*notes(), adapter="old-notes", required=[Function("other", ["x"])])


def test_worlds_are_passed_as_a_text_as_bytes_or_as_an_object(examples, notes):
    content, plan = examples("wcplan/notes.json"), nuigatre.plan(*notes())
    for worlds in content.decode(), bytearray(content), json.loads(content):
        assert nuigatre.plan(*notes(worlds)) == plan


# texts that are not one JSON value, and the byte at which they stop being JSON; None is the length of notes.json, which is put
# in place of `§`
NO_VALUES = [
    ('§,"exports":[]', None), ('§,"reject_legacy_names":true', None), ('§,"resolve":{}', None), ("§§", None), ("§,", None), ("§}", None),
    ("§]", None), ("§\0", None), ("§//", None), ("\ufeff§", 0), ("\v§", 0), ("\xa0§", 0), ("\0", 0), ("", 0), (" \n", 2), ("{", 1),
    ('{"worlds":[', 11), ('{"worlds":[]', 12), ('{"worlds":!}', 10), ('{"worlds":NaN}', 10), ('{"worlds":[-Infinity]}', 11),
    ("{'worlds':[]}", 1), ('{"worlds":["\\ud800"]}', 11), ('{"worlds":["\t"]}', 11), ('{"worlds":[01]}', 11), ("{} {}", 3),
    ('{},"worlds":[]', 2), ("[}", 1), ("package my:notes;", 0), ("1,2", 1), ('"worlds', 0), ("[" * 129 + "]" * 129, 128), ("[" * 100_000, 128)]


def test_a_text_of_worlds_is_one_json_value_or_refused_with_its_own_byte(examples, notes):
    content = examples("wcplan/notes.json").decode().strip()
    calls = [nuigatre.world, nuigatre.plan, nuigatre.planned_world, nuigatre.validate, nuigatre.validated_module,
             nuigatre.component_imports, lambda *it: nuigatre.component_paths(*it, key="all")]
    for form, at in NO_VALUES:
        text, byte = form.replace("§", content), len(content) if at is None else at
        for worlds in text, text.encode():
            for call in calls:
                with pytest.raises(Fault) as refused:
                    call(worlds, *notes()[1:])
                found = refused.value
                assert (found.number, found.text, found.place) == (258, "Json: not JSON", {"kind": "json-byte", "byte": byte}), form[:40]
                assert str(found) == f"Json: not JSON at byte {byte}"


def test_a_text_of_worlds_that_is_one_value_goes_in_as_it_is(examples, notes, monkeypatch):
    content, plan = examples("wcplan/notes.json").decode().strip(), nuigatre.plan(*notes())
    messages, asked = [], nuigatre.asked
    monkeypatch.setattr(nuigatre, "asked", lambda name, given, *room: messages.append(given["message"]) or asked(name, given, *room))
    others = ['"other":1e999', '"other":' + "9" * 5000, '"other":-0.0', '"other":"\\u0000\\ud83d\\ude00"',
              '"other":"\x7f\u202e"', '"resolve":{},"world":7']
    for text in [f" \t\r\n{content}\n ", *(f"{content[:-1]},{it}}}" for it in others)]:
        assert nuigatre.plan(*notes(text)) == plan
        assert messages[-1].startswith(b'{"resolve":' + text.encode() + b',"')


# what is read and refused: the number, the text, the path and the line
REFUSED_VALUES = [
    ("[]", 2 + 256 * (3 + 256), "Json: not an object", "", "Json: not an object"),
    ("null", 2 + 256 * (3 + 256), "Json: not an object", "", "Json: not an object"),
    ("{}", 2 + 256 * 3, "Json: worlds: missing", "worlds", "Json: worlds: missing"),
    ('{"worlds":1}', 2 + 256 * (3 + 256 * 3), "Json: worlds: not a list", "worlds", "Json: worlds: not a list"),
    ('{"worlds":[],"worlds":[]}', 2 + 256 * 2, "Json: repeated member", "worlds", "Json: worlds: repeated member"),
    ('{"a":{"resolve":1,"resolve":1}}', 2 + 256 * 2, "Json: repeated member", "a.resolve", "Json: a.resolve: repeated member"),
    ('{"resolve":1,"resolve":1}', 2 + 256 * 2, "Json: repeated member", "resolve", "Json: resolve: repeated member")]


def test_a_fault_of_json_is_about_the_worlds_that_were_passed(notes):
    for text, number, words, path, line in REFUSED_VALUES:
        with pytest.raises(Fault) as refused:
            nuigatre.world(*notes(text))
        found = refused.value
        assert (found.number, found.text, found.place, str(found)) == (number, words, {"kind": "json-path", "path": path}, line)
    with pytest.raises(Fault, match="^NotText$"):
        nuigatre.world(*notes(b'{"worlds":"\xff"}'))
    with pytest.raises(Fault, match="^NotText$"):
        nuigatre.world(*notes('{"worlds":"\ud800"}'))
    for worlds, world in ({"worlds": "\ud800"}, "app"), ({"worlds": float("nan")}, "app"), (None, "\ud800"):
        with pytest.raises(BadArgument):
            nuigatre.world(worlds or notes()[0], world, *notes()[2:])


def test_a_fault_has_its_number_its_text_and_its_place(examples, notes):
    with pytest.raises(Fault, match='^World: Main: MissingWorldExport: missing export "is-ready"$') as missing:
        nuigatre.world(*notes(exports=()))
    assert missing.value.text == "World: Main: MissingWorldExport"
    assert (missing.value.place["kind"], missing.value.place["name"]) == ("missing-export", "is-ready")
    with pytest.raises(Fault, match="^Read: Truncated: byte 99$") as cut:
        nuigatre.trim(examples("adapter.wasm")[:99], ["size_of"])
    assert (cut.value.call, cut.value.text, cut.value.number) == ("trim", "Read: Truncated", 1 + 256 * 3)
    assert cut.value.place["kind"] == "bytes"
    with pytest.raises(Fault, match="^adapter module does not have export `other`$") as name:
        nuigatre.why(examples("adapter.wasm"), ["size_of", "other"])
    assert name.value.missing == "other"
    assert nuigatre.fault_text("trim", 99999) is None
    with pytest.raises(BadArgument):
        nuigatre.fault_text("nope", 2)
    with pytest.raises(Fault, match="^UnknownWorld `nope`: worlds ") as world:
        nuigatre.world(notes()[0], "nope", *notes()[2:])
    assert world.value.text == "UnknownWorld `nope`"
    assert str(world.value).endswith('worlds "my:notes/guest@1.2.0" "my:notes/old-notes@1.2.0" "my:notes/app@1.2.0"')


# places as the library writes them, and their words, which are those of the tests of rust/nuigatre/src/place.rs
I32 = {"params": ["i32", {"nullable": True, "index": 3}], "results": ["i64"]}
REFS = {"params": [], "results": ["externref", "non-null-funcref"]}
PLACES = [
    ({"kind": "import", "adapter": 'a "b"', "module": "m", "name": "f", "index": 3, "types": {"wanted": I32, "found": REFS}},
     r'import "m" "f", wanted (i32, (ref null 3)) -> i64, found () -> (externref, (ref func)), in adapter "a \"b\""'),
    ({"kind": "export", "adapter": None, "name": "f\n", "types": None}, r'export "f\n"'),
    ({"kind": "missing-function", "adapter": None, "module": "wasi:cli/run@0.2.6", "name": "run", "types": None},
     'missing "wasi:cli/run@0.2.6" "run"'),
    ({"kind": "section", "adapter": None, "id": 8}, "start section"),
    ({"kind": "section", "adapter": "old", "id": 12}, 'data count section, in adapter "old"'),
    ({"kind": "body", "adapter": None, "function": 7, "operator": 2}, "operator 2 of the body of function 7"),
    ({"kind": "body", "adapter": "old", "function": 7, "operator": None}, 'body of function 7, in adapter "old"'),
    ({"kind": "page-sizes", "adapter": "old", "own": 1, "main": 65536}, 'page size 1, main module\'s 65536, in adapter "old"'),
    ({"kind": "function", "adapter": None, "interface": None, "name": "log", "abi": "guest-import"}, 'function "log"'),
    ({"kind": "function", "adapter": "old", "interface": "a:b/c", "name": "f", "abi": "x"}, 'function "a:b/c" "f", in adapter "old"'),
    ({"kind": "bytes", "adapter": None, "offset": 57, "section": 2}, "byte 57, in the import section"),
    ({"kind": "bytes", "adapter": "old", "offset": 4, "section": None}, 'byte 4, in adapter "old"'),
    ({"kind": "bytes", "adapter": None, "offset": 4, "section": 77}, "byte 4, in section 77"),
    ({"kind": "worlds", "name": "a", "worlds": ["b:c/d", "e"]}, 'worlds "b:c/d" "e"'),
    ({"kind": "worlds", "name": "a", "worlds": []}, "there is no world"),
    ({"kind": "imports", "key": "a", "imports": []}, "the world imports nothing"),
    ({"kind": "imports", "key": "a", "imports": list("abcdefghijk")}, 'imports "a" "b" "c" "d" "e" "f" "g" "h" and 3 more'),
    ({"kind": "world", "index": 0}, "world 0"), ({"kind": "interface", "index": 1}, "interface 1"),
    ({"kind": "type", "index": 2}, "type 2"), ({"kind": "package", "index": 3}, "package 3"),
    ({"kind": "export", "adapter": None, "name": "\x1b[2J\x9b\u202e\xa0 \\é\0", "types": None}, r'export "\u{1b}[2J\u{9b}\u{202e}\u{a0} \\é\0"'),
    ({"kind": "other", "a": "\u202e"}, r'{"kind": "other", "a": "\u202e"}')]


def test_each_place_has_words_in_the_line_of_its_fault():
    for place, words in PLACES:
        assert str(Fault("world", 1, "Text", place, None)) == f"Text: {words}"
    for place in None, {"kind": "module", "adapter": "old"}, {"kind": "key", "key": "run"}:
        assert str(Fault("world", 1, "Text `\n\u202e`", place, None)) == r"Text `\n\u{202e}`"


def test_exceptions_go_from_one_process_to_another(notes):
    with pytest.raises(Fault) as missing:
        nuigatre.world(*notes(exports=()))
    missing.value.more = 1
    for it in missing.value, BadArgument("a"), nuigatre.OutOfMemory("b"), nuigatre.NoLibrary("c"):
        for again in pickle.loads(pickle.dumps(it)), copy.copy(it), copy.deepcopy(it):
            assert (type(again), str(again), again.args, again.__dict__) == (type(it), str(it), it.args, it.__dict__)
    with multiprocessing.Pool(1) as pool, pytest.raises(Fault, match="^NotWasm: byte 0$") as refused:
        pool.map_async(nuigatre.scan, [b""]).get(timeout=60)
    assert (refused.value.call, refused.value.number, refused.value.place["offset"]) == ("scan", 1, 0)


def test_what_is_no_module_no_name_and_no_text_of_worlds_is_a_type_error(examples, notes, tmp_path):
    file = tmp_path / "x.wasm"
    file.write_bytes(KINDS)
    calls = [nuigatre.scan, nuigatre.dedupe, nuigatre.paths, lambda it: nuigatre.trim(it, ["f"]), lambda it: nuigatre.why(it, ["f"]),
             lambda it: nuigatre.plan(*notes()[:2], it), lambda it: nuigatre.plan(*notes(adapter=it))]
    for it in pathlib.Path(file), 1000, "text", str(file), [0, 97], True:
        for call in calls:
            with pytest.raises(TypeError, match=rf"a module is bytes, a bytearray or a memoryview, not {type(it).__name__}: "):
                call(it)
    for it in bytearray(KINDS), memoryview(KINDS), memoryview(b"-" + KINDS)[1:]:
        assert nuigatre.scan(it) == nuigatre.scan(KINDS)
    for it in file, 1000, None, [notes()[0]]:
        with pytest.raises(TypeError, match="worlds are JSON in a str or in bytes, or an object, not "):
            nuigatre.plan(it, *notes()[1:])
    adapter = examples("adapter.wasm")
    for call in (lambda: nuigatre.trim(adapter, "size_of"), lambda: nuigatre.trim(adapter, b"size_of"),
                 lambda: nuigatre.trim(adapter, [b"size_of"]), lambda: nuigatre.trim(adapter, ["size_of"], realloc=b"x"),
                 lambda: nuigatre.trim(adapter, ["size_of"], page_size_log2=16.5), lambda: nuigatre.paths(adapter, imports="env"),
                 lambda: nuigatre.trim(adapter, ["size_of"], page_size_log2=float("nan")), lambda: nuigatre.plan(*notes(exports="is-ready")),
                 lambda: nuigatre.plan(*notes(), resolve={}), lambda: nuigatre.plan(*notes(), length=1)):
        with pytest.raises(TypeError):
            call()


def test_arguments_that_have_no_result(examples):
    adapter = examples("adapter.wasm")
    for required, others in ([], {}), (["\ud800"], {}), (["size_of"], {"page_size_log2": 17}):
        with pytest.raises(BadArgument):
            nuigatre.trim(adapter, required, **others)
    for number in 1 << 32, (1 << 32) + 16, -1:
        with pytest.raises(BadArgument):
            nuigatre.trim(adapter, ["size_of"], page_size_log2=number)


def damaged(content, drawn):
    """Bytes of which some are replaced, taken out, put in or there twice, or whose end is cut."""
    it = bytearray(content)
    for _ in range(drawn.randint(1, 3)):
        at, few, kind = drawn.randint(0, len(it)), drawn.randint(1, 8), drawn.randint(0, 4)
        if kind == 0 and at < len(it):
            it[at] = drawn.choice([0, 1, 0x7F, 0x80, 0xFF, drawn.randint(0, 255)])
        elif kind == 1:
            del it[at : at + few]
        elif kind == 2:
            it[at:at] = drawn.randbytes(few)
        elif kind == 3:
            it[at:at] = it[at : at + few]
        elif drawn.randint(0, 3) == 0:
            del it[at:]
    return bytes(it)


def test_damaged_modules_and_messages_end_each_call(examples, notes):
    drawn, refused = random.Random(1), 0
    modules = [examples(f"{it}.wasm") for it in ("adapter", "main", "duplicate-imports", "wcplan/adapter", "wcplan/main")]
    for _ in range(2000):
        wasm, required = damaged(drawn.choice(modules), drawn), [drawn.choice(CHOICES)]
        worlds = damaged(examples("wcplan/notes.json"), drawn) if drawn.random() < 0.5 else None
        calls = [lambda: nuigatre.dedupe(wasm),
                 lambda: nuigatre.trim(wasm, required, realloc=drawn.choice([None, "cabi_realloc"]), page_size_log2=drawn.randint(0, 17)),
                 lambda: nuigatre.why(wasm, required),
                 lambda: nuigatre.scan(wasm),
                 lambda: nuigatre.paths(wasm, drawn.choice([[], required]), drawn.choice([[], ["__main_module__", "env=memory"]])),
                 lambda: nuigatre.planned_world(*notes(worlds, wasm if drawn.random() < 0.3 else None))]
        for call in calls:
            try:
                call()
            except (Fault, BadArgument) as why:
                refused += 1
                assert str(why)
    assert refused > 2000
    assert nuigatre.trim(examples("adapter.wasm"), ["size_of"], realloc="cabi_realloc") == examples("trimmed.wasm")


def test_threads_call_at_once(examples, notes):
    plan, wrong = nuigatre.plan(*notes()), []

    def work():
        for _ in range(20):
            if nuigatre.plan(*notes()) != plan:
                wrong.append(1)

    threads = [threading.Thread(target=work) for _ in range(4)]
    for it in threads:
        it.start()
    for it in threads:
        it.join()
    assert not wrong
