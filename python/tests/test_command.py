"""The command prints what the pages of wctrim, wcwhy and wcplan show, and the package says what it is."""

import pathlib
import re
import subprocess
import sys

import pytest

import nuigatre
from nuigatre import Adapter
from nuigatre.__main__ import main
from nuigatre._lines import asks, lines, required

TOP = pathlib.Path(__file__).resolve().parent.parent.parent
EXAMPLES = TOP / "examples"
COMPONENT = [EXAMPLES / "wcplan" / "main.wasm", "--adapt", f"old-notes={EXAMPLES}/wcplan/adapter.wasm"]
WORLD = ["--worlds", EXAMPLES / "wcplan" / "notes.json", "--world", "app", "--adapter-export", "old-notes=is-ready"]


@pytest.fixture
def said(capfd):
    """Runs a command: its status, and what it prints."""

    def run(*words):
        try:
            status = main([str(it) for it in words])
        except SystemExit as ended:
            status = ended.code
        return status, *capfd.readouterr()

    return run


def test_scan_trim_and_dedupe_print_the_lines_of_wctrim(said, tmp_path):
    assert said("scan", EXAMPLES / "duplicate-imports.wasm") == (
        0, "import env log func\nimport env log func\nexport memory memory 0\nexport greet func 2\n", "")
    out = tmp_path / "out.wasm"
    assert said("dedupe", EXAMPLES / "duplicate-imports.wasm", out) == (0, "env: log -> log [v2]\n", "")
    assert b"log [v2]" in out.read_bytes()
    assert said("trim", EXAMPLES / "adapter.wasm", out, "--realloc", "cabi_realloc", "size_of") == (0, "", "")
    assert out.read_bytes() == (EXAMPLES / "trimmed.wasm").read_bytes()
    out.unlink()
    assert said("trim", EXAMPLES / "adapter.wasm", out, "size") == (
        1, "", "nuigatre: adapter module does not have export `size`\n")
    assert not out.exists()


def test_why_prints_the_lines_of_wcwhy(said):
    assert said("why", EXAMPLES / "adapter.wasm", "--import", "__main_module__", "size_of")[1] == (
        "__main_module__ cabi_realloc\n  export size_of\n* func 5\n* func 7 copy\n  func 0 realloc\n")
    assert "my:demo/store remove: not reached\n" in said("why", EXAMPLES / "adapter.wasm", "size_of", "--import=my:demo")[1]
    assert said("why", EXAMPLES / "adapter.wasm", "--import", "a:b\nc") == (1, "", "nuigatre: no import a:b\\nc\n")


SUMMARIZE = """my:notes/store@1.2.0 summarize
  main exports print
  func 5
  func 3
  main imports old-notes length_of
  adapter old-notes exports length_of
  func 6
  func 2 summarize
  adapter old-notes imports my:notes/store@1.2.0 summarize
"""


def test_why_goes_on_through_adapters_with_a_world_or_without(said):
    assert said("why", *COMPONENT, "--import", "my:notes/store=summarize") == (0, SUMMARIZE, "")
    every = said("why", *COMPONENT)[1]
    assert SUMMARIZE.splitlines()[0] in every.splitlines() and every == said("why", *COMPONENT, *WORLD)[1]
    marked = said("why", *COMPONENT, *WORLD, "--import", "my:notes")[1]
    assert "* func 5\n" in marked and marked.replace("* ", "  ") == every


def test_what_is_wrong_has_a_line_and_a_status(said, tmp_path):
    wat = EXAMPLES / "main.wat"
    assert said("scan", wat) == (1, "", "nuigatre: NotWasm: byte 0\n")
    assert said("scan", tmp_path / "none") == (1, "", f"nuigatre: {tmp_path}/none: No such file or directory\n")
    for words in ([], ["other"], ["scan"], ["why", wat, "--world", "x"], ["why", wat, "--adapter-export", "x=y"], ["why", wat, "--adap", wat],
                  ["why", wat, "--adapt", f"a={wat}", "--adapt", f"a={wat}"], ["why", *COMPONENT, *WORLD, "--import", "a", "--import", "b"]):
        status, printed, wrong = said(*words)
        assert (status, printed) == (2, "") and wrong.startswith("usage: nuigatre")


def test_the_module_runs_as_a_command():
    words = [sys.executable, "-m", "nuigatre", "scan", EXAMPLES / "main.wasm"]
    ran = subprocess.run(words, capture_output=True, text=True, check=True, cwd=pathlib.Path(nuigatre.__file__).parent.parent)
    assert ran.stdout.splitlines()[3] == "import old-files size_of func"


def test_a_key_asks_for_a_module_or_its_package_with_the_version_or_without():
    module = "wasi:io/error@0.2.6"
    assert all(asks(key, module, "f") for key in (module, "wasi:io/error", "wasi:io@0.2.6", "wasi:io", "wasi:io=f"))
    assert not any(asks(key, module, "f") for key in ("wasi:io/error@0.2.5", "wasi:io@0.2", "wasi", "wasi:io=g", ""))
    assert asks("env", "env", "f") and not asks("en", "env", "f")


def test_lines_say_callers_roots_and_types():
    def item(index, root, come, callers=None):
        return {"space": "func", "index": index, "name": None, "root": root, "from": come, "callers": callers}

    callers = {"first": [{"index": 4, "name": "a\u202eb"}], "count": 3}
    roots = [{"kind": "fills", "space": "table", "index": 0}, {"kind": "unreached"}, {"kind": "unread", "body": "element section"}]
    module = {"adapter": None, "roots": roots, "items": [item(1, 0, None), item(2, None, 0, callers), item(3, 1, None), item(5, 2, None)]}
    of = {"module": "a:b/c", "name": "f"}
    ways = [{"interface": "a:b/c", "name": name, "module": 0, "item": at, "import": of, "type": kind}
            for name, at, kind in (("f g", 1, None), ("f", 2, None), ("f", 3, None), (None, 1, "t"))]
    ways.append({"interface": "a:b/d", "name": None, "module": None, "item": None, "import": {"module": "world exports", "name": "x"}, "type": "t"})
    path = ["  main fills table 0", "  func 1", "  called by func 4 a\\u{202e}b", "  called by 2 more", "  func 2", "  main imports a:b/c f"]
    assert list(lines({"modules": [module], "ways": ways}, True)) == [
        "a:b/c f\\u{20}g", *path, "a:b/c f", "  main never uses it", "  main imports a:b/c f",
        "a:b/c f", "  main is not followed: element section", "  main imports a:b/c f",
        "a:b/c: only its types are used", "  as above to func 2 of main", "  main imports a:b/c f", "  type t",
        "a:b/d: only its types are used", "  world exports x", "  type t"]


def test_an_adapter_that_nothing_needs_is_left_out(examples):
    main_imports = nuigatre.scan(examples("wcplan/main.wasm"))["imports"]
    adapter = examples("wcplan/adapter.wasm")
    assert required(main_imports, "old-notes", adapter, []) == ["length_of", "cabi_import_realloc"]
    assert required(main_imports, "other", adapter, []) == []
    assert required(main_imports, "other", adapter, ["is-ready"]) == ["cabi_import_realloc", "is-ready"]


def test_the_package_says_what_it_is(examples):
    written = (TOP / "python" / "pyproject.toml").read_text(encoding="utf-8")
    assert re.search(r'^version = "(.*)"$', written, re.M)[1] == nuigatre.__version__
    assert (TOP / "python" / "LICENSE").read_bytes() == (TOP / "LICENSE").read_bytes()
    adapter = Adapter("old-notes", examples("wcplan/adapter.wasm"), ["is-ready"])
    assert repr(adapter) == "<Adapter 'old-notes' of 512 bytes, exports ['is-ready']>"
    assert repr(Adapter("x", pathlib.Path("y"))).startswith("<Adapter 'x' of PosixPath('y')")
    made = nuigatre.world(examples("wcplan/notes.json"), "app", examples("wcplan/main.wasm"), [adapter])
    assert repr(made).startswith("<World: main module of 302 bytes, adapter 'old-notes' of 317 bytes; record of ")
    assert repr(nuigatre.why(examples("adapter.wasm"), ["size_of"])) == "<Chains from 'size_of' to 5 of 6 imports>"
    with pytest.raises(TypeError, match="unexpected keyword argument 'reject_legacy_name'"):
        nuigatre.plan(examples("wcplan/notes.json"), "app", examples("wcplan/main.wasm"), reject_legacy_name=True)
