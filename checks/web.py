#!/usr/bin/env python3
"""Checks what JavaScript, Python and the page make of the library.

    checks/web.py [--quick | --only NAME ..] [--fuzz N] [--wctrim PROGRAM] [--pictures FOLDER]

Each part has a line:

    calls       web/calls.mjs and python/nuigatre/_calls.py say what include/nuigatre.h says, and no language lacks a call
    files       the page loads nothing from elsewhere, and names only files that exist
    module      web/nuigatre.wasm is what web/nuigatre.wasm.json says, and of which sources it is made
    heap        web/heap.c, the memory of nuigatre.wasm, over refused growth (checks/c/web_heap.c): needs cc
    memory      calls on large inputs of ten shapes take at most twice the memory of native calls over the packed library
                (web/test/native_peak.c): needs node and cc
    node        the calls of JavaScript (web/test): needs node 20 and web/nuigatre.wasm
    wctrim      the bytes of web/nuigatre.wasm are those of a program, for the adapters of examples and damaged ones: of the
                program that --wctrim names, or of checks/c/like_wctrim.c over the packed library: needs node and cc
    python      the calls of Python (python/tests), over the library that NUIGATRE_LIBRARY names or tools/targets.py made, or the
                packed one: needs pytest and cc
    package     `npm pack` makes a package of web/ whose files run, with the Rust crate's version: needs npm
    one file    the page as one file (web/one-file.py), opened from a disk in chromium and firefox-esr
    keys        the page in chromium, by real keys: the picture is one stop of the Tab key, arrows go through it, Enter picks an
                import, and a resized page says if the picture is wider than its room
    chromium    the page, used as a person would (web/test/driver.mjs): light and dark at 320, 1000 and 2000 pixels, and N
                damaged files
    firefox     the same in firefox-esr

A part whose tool is missing is left out, with Debian's package, and fails only if --only names it. --quick runs the first
eight. --pictures writes a picture of each width, light and dark. The status is 1 if a part fails.
"""
import argparse
import contextlib
import http.server
import json
import os
import pathlib
import re
import shutil
import subprocess
import sys
import tempfile
import threading
import time

import browsers

sys.path.append(str(pathlib.Path(__file__).resolve().parent.parent / "tools"))
import archives
from repository import TOP

WEB = TOP / "web"
WIDTHS = 320, 1000, 2000
SCHEMES = "light", "dark"
SECONDS = 3600
# how a browser is asked for dark colours
DARK = "--blink-settings=preferredColorScheme=%d"
SCHEME_OF_FIREFOX = 'user_pref("ui.systemUsesDarkTheme", %d);\n'
# what the pages that are no page's own address may name
ADDRESSES = "http://www.w3.org/2000/svg", "http://localhost:8000/web/"


class Wrong(Exception):
    """Why a part fails."""


class Missing(Exception):
    """What a part needs, and is missing."""


def run(words, **how):
    ran = subprocess.run([str(it) for it in words], capture_output=True, text=True, errors="replace", check=False, cwd=TOP, **how)
    if ran.returncode:
        raise Wrong((ran.stdout + ran.stderr).strip()[-4000:])
    return ran.stdout


# the packages of Debian that have programs of other names
PACKAGES = {"node": "nodejs", "cc": "gcc", "pytest": "python3-pytest"}


def need(*programs):
    """The first of these programs that there is."""
    found = next(filter(None, map(shutil.which, programs)), None)
    if not found:
        raise Missing(f"{' or '.join(programs)} is missing: apt-get install {PACKAGES.get(programs[0], programs[0])}")
    return found


def packed(folder):
    """The folder that has the library which the Rust crate has packed, for this machine: libnuigatre.a and libnuigatre.so."""
    need("cc")
    ran = subprocess.run([TOP / "tools" / "targets.py", "--packed", "--out", folder, os.uname().machine], capture_output=True, text=True, check=False)
    if ran.returncode:
        raise Missing((ran.stdout + ran.stderr).strip())
    return os.path.join(folder, os.uname().machine)


@contextlib.contextmanager
def of_these_sources():
    """What is wrong beside the packed library is no fault while that, or web/nuigatre.wasm, is made of other sources."""
    try:
        yield
    except Wrong as why:
        others = [f"rust/nuigatre/lib is of another {it}" for it in archives.reasons()]
        others += [it for it in [module(None)] if "other sources" in it]
        if others:
            raise Missing("\n".join([*others, str(why)])) from why
        raise


def calls(_):
    return run([sys.executable, TOP / "tools" / "c_calls.py"]).strip()


def files(_):
    """The page's policy, and the addresses in its files."""
    sources = {path.name: path.read_text(encoding="utf-8") for path in sorted(WEB.iterdir()) if path.suffix in (".mjs", ".html", ".css")}
    for name, text in sources.items():
        for address in re.findall(r"\b(?:https?|wss?)://[^\s\"'`)<]*", text):
            if address not in ADDRESSES:
                raise Wrong(f"web/{name} names {address}")
        for other in re.findall(r'(?:from|src=|href=|new URL\()\s*"(\./)?([\w.-]+\.(?:mjs|css|wasm))"', text):
            if not (WEB / other[1]).exists():
                raise Wrong(f"web/{name} names {other[1]}, which is missing")
    policy = re.search(r'Content-Security-Policy" content="([^"]*)"', sources["index.html"])[1]
    for part in "default-src 'none'", "connect-src 'self'", "script-src 'self' 'wasm-unsafe-eval'":
        if part not in policy:
            raise Wrong(f"the page's policy lacks {part}")
    for path in sorted((WEB / "example").iterdir()):
        if path.read_bytes() != (TOP / "examples" / "wcplan" / path.name).read_bytes():
            raise Wrong(f"web/example/{path.name} is not that of examples/wcplan")
    if (WEB / "wasi-command.json").read_bytes() != (TOP / "examples" / "wasi" / "wasi-command.json").read_bytes():
        raise Wrong("web/wasi-command.json is not that of examples/wasi")
    return f"{len(sources)} files name no other address"


def module(_):
    """Says of which sources the module is made. Other sources are no fault, since it is made once for a version."""
    if not (WEB / "nuigatre.wasm").is_file():
        raise Missing("web/nuigatre.wasm is missing: web/build.py makes it")
    ran = subprocess.run([WEB / "build.py", "--state"], capture_output=True, text=True, check=False)
    if "is made of" not in ran.stdout:
        raise Wrong(ran.stdout + ran.stderr)
    return ran.stdout.strip()


def compiled(folder, *sources):
    """A program of these sources in C."""
    program = os.path.join(folder, "program")
    run([need("cc"), "-std=gnu11", "-Wall", "-Wextra", "-Werror", "-O2", "-I", TOP / "include", *sources, "-o", program])
    return program


def heap(_):
    with tempfile.TemporaryDirectory() as folder:
        return run([compiled(folder, TOP / "checks" / "c" / "web_heap.c"), "300", "1"]).strip()


def memory(_):
    """The memory of calls beside that of native ones."""
    words = [need("node"), WEB / "test" / "memory.mjs"]
    with tempfile.TemporaryDirectory() as folder:
        program = compiled(folder, WEB / "test" / "native_peak.c", os.path.join(packed(folder), "libnuigatre.a"))
        with of_these_sources():
            return run([*words, program]).strip()


def node(_):
    program = need("node")
    if not (WEB / "nuigatre.wasm").is_file():
        raise Missing("web/nuigatre.wasm is missing: web/build.py makes it")
    said = run([program, "--test", "--test-reporter=tap", *sorted((WEB / "test").glob("*.test.mjs"))])
    return " ".join(re.findall(r"^# ((?:pass|fail) \d+)$", said, re.M))


def wctrim(arguments):
    """The same bytes as a program of this machine."""
    words = [need("node"), WEB / "test" / "beside-wctrim.mjs"]
    if arguments.wctrim:
        return run([*words, os.path.abspath(arguments.wctrim)]).strip()
    with tempfile.TemporaryDirectory() as folder:
        sources = TOP / "checks" / "c" / "like_wctrim.c", TOP / "include" / "nuigatre_heap.c", os.path.join(packed(folder), "libnuigatre.a")
        program = compiled(folder, *sources)
        with of_these_sources():
            return run([*words, program]).strip() + ", by the library that the Rust crate has packed"


def python(_):
    pythons = [it for it in (sys.executable, "/usr/bin/python3") if os.path.exists(it)]
    has = lambda it: subprocess.run([it, "-c", "import pytest"], capture_output=True, check=False).returncode == 0
    found = next(filter(has, pythons), None)
    if not found:
        raise Missing("pytest is missing: apt-get install python3-pytest")
    made = TOP / "crates" / "nuigatre" / "out" / os.uname().machine / "libnuigatre.so"
    there = filter(os.path.isfile, (os.environ.get("NUIGATRE_LIBRARY", ""), made, TOP / "python" / "nuigatre" / "libnuigatre.so"))
    with tempfile.TemporaryDirectory() as folder:
        library = next(there, None)
        words = [found, "-m", "pytest", "-q", "-p", "no:cacheprovider", TOP / "python" / "tests"]
        with contextlib.nullcontext() if library else of_these_sources():
            said = run(words, env={**os.environ, "NUIGATRE_LIBRARY": str(library or os.path.join(packed(folder), "libnuigatre.so"))})
        return said.strip().splitlines()[-1]


def versions():
    """What has another version than the Rust crate."""
    files = "rust/nuigatre/Cargo.toml", "python/pyproject.toml", "web/package.json"
    found = {file: re.search(r'^\W*version\W+([\d.]+)"', (TOP / file).read_text(encoding="utf-8"), re.M)[1] for file in files}
    return [f"{file} has version {version}" for file, version in found.items() if version != found[files[0]]]


def package(_):
    """What npm packs is complete: its command runs of that alone."""
    program = need("npm")
    if versions():
        raise Wrong(f"{', '.join(versions())}, and rust/nuigatre/Cargo.toml another")
    with tempfile.TemporaryDirectory() as folder:
        run([program, "pack", "--silent", "--pack-destination", folder, WEB])
        [made] = pathlib.Path(folder).glob("*.tgz")
        run(["tar", "xf", made, "-C", folder])
        lacking = [it for it in ("LICENSE", "README.md", "calls.d.mts", "nuigatre.d.mts") if not (pathlib.Path(folder) / "package" / it).is_file()]
        if lacking:
            raise Wrong("the package lacks " + ", ".join(lacking))
        said = run([need("node"), pathlib.Path(folder) / "package" / "why.mjs", *sorted((TOP / "web" / "example").iterdir())])
        if "my:notes/store@1.2.0: 4 of 4 functions" not in said:
            raise Wrong(said)
        return f"{made.name} has {made.stat().st_size} bytes"


def one_file(_):
    """The page as one file, opened from a disk."""
    try:
        names = browsers.show_example(lambda path: run([WEB / "one-file.py", path]))
    except browsers.Failed as why:
        raise Wrong(str(why)) from why
    if not names:
        raise Missing("chromium and firefox-esr are missing: apt-get install one")
    return "opened from a disk in " + " and ".join(names)


# what has the focus: in which part it is, which box it is, and whether it is one of those that pick an import
FOCUS = """((it) => ({picture: Boolean(it.closest("#picture")), key: it.dataset?.key ?? null, isEnd: it.matches(".node.import"),
    isLit: it.classList.contains("lit"), isControl: it.matches("a, button, input, select, summary, .scrolled, .node.import"),
    name: it.tagName + " " + it.id, isBody: it === document.body}))(document.activeElement)"""
TEXT = 'document.querySelector("#%s")?.textContent'


def stops(browser):
    """What has the focus, from one Tab key to the next, until the page ends."""
    found = []
    while len(found) < 200:
        browser.press("Tab")
        now = browser.ask(FOCUS)
        if now["isBody"]:
            return found
        found.append(now)
    raise Wrong("the Tab key does not come to the end of the page")


def settled(browser):
    time.sleep(0.3)
    browsers.waited(browser, 'document.body.dataset.ready === "yes"')


def tabbed(browser):
    """Goes through the page by the Tab key, and through the picture by others."""
    found = stops(browser)
    idle = [it["name"] for it in found if not it["isControl"]]
    if idle or sum(it["picture"] for it in found) != 1:
        raise Wrong(f"of {len(found)} stops {sum(it['picture'] for it in found)} are in the picture, and these do nothing: {idle}")
    while not browser.ask(FOCUS)["picture"]:
        browser.press("Tab")
    first = browser.ask(FOCUS)
    browser.press("ArrowDown")
    second = browser.ask(FOCUS)
    if not (first["isEnd"] and second["isEnd"] and second["isLit"] and first["key"] != second["key"]):
        raise Wrong(f"an arrow goes from {first} to {second}")
    browser.press("Enter")
    settled(browser)
    if browser.ask(TEXT % "title") != "my:notes/store@1.2.0" or browser.ask(FOCUS)["key"] != second["key"]:
        raise Wrong(f"Enter picks {browser.ask(TEXT % 'title')}, and the focus is {browser.ask(FOCUS)}")
    browser.press("Tab")
    browser.press("Tab", shift=True)
    if browser.ask(FOCUS)["key"] != second["key"]:
        raise Wrong(f"the Tab key comes back to {browser.ask(FOCUS)}, and not to {second}")
    for key in "End", "Home":
        browser.press(key)
    if browser.ask(FOCUS)["key"] != first["key"]:
        raise Wrong(f"Home goes to {browser.ask(FOCUS)}")
    return len(found)


def keys(_):
    """The page by real keys, and in a window that is resized."""
    page, kind = Page(), browsers.Chromium
    with tempfile.TemporaryDirectory(ignore_cleanup_errors=True) as folder:
        browser = kind(need(*kind.programs), folder)
        try:
            browser.resize(1000, 1700)
            browser.open(f"http://127.0.0.1:{page.server.server_port}/index.html?example&seconds={SECONDS}")
            browsers.waited(browser, f'({TEXT % "numbers"} ?? "").length > 0 && document.body.dataset.ready === "yes"')
            count = tabbed(browser)
            for width, is_wider in (2000, False), (360, True), (1000, False), (320, True), (2000, False):
                browser.resize(width, 1700)
                time.sleep(0.5)
                said = browser.ask(TEXT % "more")
                if ("wider than its room" in said) != is_wider:
                    raise Wrong(f"at {width} pixels it is said: {said}")
        except browsers.Failed as why:
            raise Wrong(f"{kind.name}: {why}") from why
        finally:
            browser.close()
            page.server.shutdown()
    return f"{count} stops of the Tab key, one of them in the picture"


class Page:
    """Serves the page with the driver in it, and takes what that has seen. A script that arrives at the end keeps the page
    loading until then, since a browser takes its picture once all is loaded."""

    def __init__(self):
        page, self.results, self.done = self, None, threading.Event()

        class Handler(http.server.SimpleHTTPRequestHandler):
            extensions_map = {**http.server.SimpleHTTPRequestHandler.extensions_map, ".mjs": "text/javascript", ".wasm": "application/wasm"}

            def __init__(self, *given):
                super().__init__(*given, directory=str(WEB))

            def log_message(self, *_):
                pass

            def answer(self, body, kind):
                self.send_response(200)
                self.send_header("content-type", kind)
                # so that nothing but the page's policy refuses it
                self.send_header("access-control-allow-origin", "*")
                self.end_headers()
                self.wfile.write(body)

            def do_POST(self):
                page.results = json.loads(self.rfile.read(int(self.headers["content-length"])))
                self.answer(b"", "text/plain")
                page.done.set()

            def do_GET(self):
                head, _, query = self.path.partition("?")
                if head == "/hold.mjs":
                    page.done.wait(SECONDS)
                    self.answer(b"", "text/javascript")
                elif head == "/frame":
                    width = int(re.search(r"width=(\d+)", query)[1])
                    text = '<!doctype html><style>:root{color-scheme:light dark}body{margin:0}iframe{border:0;display:block}</style>'
                    text += f'<iframe src="/?{query}" width="{width}" height="{height_of(width)}"></iframe><script async src="/hold.mjs"></script>'
                    self.answer(text.encode(), "text/html")
                elif head == "/":
                    driver = '<script type="module" src="test/driver.mjs"></script></html>'
                    self.answer((WEB / "index.html").read_text(encoding="utf-8").replace("</html>", driver).encode(), "text/html")
                elif head == "/elsewhere":
                    self.answer(b"", "text/plain")
                elif re.fullmatch(r"/examples/[\w/]+\.wasm", head):
                    self.answer((TOP / head[1:]).read_bytes(), "application/wasm")
                else:
                    super().do_GET()

        self.server = http.server.ThreadingHTTPServer(("127.0.0.1", 0), Handler)
        threading.Thread(target=self.server.serve_forever, daemon=True).start()

    def address(self, query):
        port = self.server.server_port
        return f"http://127.0.0.1:{port}/frame?{query}&seconds={SECONDS}&elsewhere=http://localhost:{port}/elsewhere"


def height_of(width):
    return 3200 if width < 600 else 1700


def judged(results):
    """The lines on what was seen; Wrong if a line fails."""
    if results is None:
        raise Wrong("the page sent no results")
    wrong = [it["what"] for it in results if not it["is"]]
    if wrong:
        raise Wrong("\n".join(wrong))
    return results


def opened(words, page):
    """Opens the page in a browser, and ends that once there are results."""
    process = subprocess.Popen(words, stdout=subprocess.DEVNULL, stderr=subprocess.DEVNULL, start_new_session=True)
    try:
        if not page.done.wait(SECONDS):
            raise Wrong(f"nothing after {SECONDS} seconds")
        if "--screenshot" in " ".join(words):
            process.wait(120)
    finally:
        process.kill()
        process.wait()
    return judged(page.results)


def browser(words_of, arguments):
    """The page at each width, light and dark; at the middle one all is used, and damaged files are tried."""
    said, runs = [], [("look", width, scheme) for scheme in SCHEMES for width in WIDTHS] + [("all", WIDTHS[1], "light")]
    for what, width, scheme in runs:
        picture = None
        if arguments.pictures and what == "look":
            os.makedirs(arguments.pictures, exist_ok=True)
            picture = os.path.join(os.path.abspath(arguments.pictures), words_of.__name__.replace("_words", f"-{width}-{scheme}.png"))
        page = Page()
        with tempfile.TemporaryDirectory(ignore_cleanup_errors=True) as folder:
            address = page.address(f"width={width}&fuzz={arguments.fuzz}&{what}&{scheme}")
            results = opened(words_of(folder, address, width, picture, scheme), page)
        said += [it["what"] for it in results if "slowest" in it["what"]]
        said.append(f"{what} at {width} pixels, {scheme}: {len(results)} passed")
    return "; ".join(said)


def chromium_words(folder, address, width, picture, scheme):
    words = [need(*browsers.Chromium.programs), "--headless", "--no-sandbox", "--disable-gpu", "--hide-scrollbars"]
    words += ["--user-data-dir=" + folder, f"--window-size={max(width, 500)},{height_of(width)}", DARK % SCHEMES[::-1].index(scheme)]
    # without a picture or a dump it would stay open; it is ended from here
    words += ["--screenshot=" + picture] if picture else ["--remote-debugging-port=0"]
    return [*words, address]


def firefox_words(folder, address, width, picture, scheme):
    with open(os.path.join(folder, "user.js"), "w", encoding="utf-8") as file:
        file.write(SCHEME_OF_FIREFOX % SCHEMES.index(scheme))
    words = [need(*browsers.Firefox.programs), "--headless", "--no-remote", "--profile", folder]
    words += [f"--window-size={max(width, 500)},{height_of(width)}"]
    return [*words, *(["--screenshot", picture] if picture else []), address]


PARTS = {
    "calls": calls, "files": files, "module": module, "heap": heap, "memory": memory, "node": node, "wctrim": wctrim, "python": python,
    "package": package, "one file": one_file, "keys": keys,
    "chromium": lambda arguments: browser(chromium_words, arguments), "firefox": lambda arguments: browser(firefox_words, arguments),
}


# those that take less than a minute of a processor's time together
QUICK = "calls", "files", "module", "heap", "memory", "node", "wctrim", "python"


def main():
    parser = argparse.ArgumentParser(description=__doc__, formatter_class=argparse.RawDescriptionHelpFormatter)
    parser.add_argument("--fuzz", type=int, default=2000, metavar="N")
    parser.add_argument("--pictures", metavar="FOLDER")
    parser.add_argument("--wctrim", metavar="PROGRAM")
    parser.add_argument("--quick", action="store_true")
    parser.add_argument("--only", nargs="*", default=[], metavar="NAME")
    arguments = parser.parse_args()
    unknown = [name for name in arguments.only if name not in PARTS]
    if unknown:
        parser.error("no part is called " + unknown[0])
    wrong = 0
    for name in arguments.only or (QUICK if arguments.quick else PARTS):
        try:
            line = "passed: " + PARTS[name](arguments)
        except Missing as why:
            wrong += bool(arguments.only)
            line = "left out: " + str(why)
        except Wrong as why:
            wrong += 1
            line = "FAILED: " + str(why)
        print(f"{name}: {line}", flush=True)
    return 1 if wrong else 0


if __name__ == "__main__":
    sys.exit(main())
