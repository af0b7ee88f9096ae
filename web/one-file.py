#!/usr/bin/env python3
"""Makes web/nuigatre.html: the whole page as one file, which a browser opens from a disk, where it loads nothing else.

    web/one-file.py [OUT]

The scripts are one script, and nuigatre.wasm, the worker's script, the example and the worlds of WASI are in it as base64. Its
policy allows this script and this style alone, by their digests, and nothing to be loaded or sent.
"""
import argparse
import base64
import hashlib
import os
import re
import sys

HERE = os.path.dirname(os.path.abspath(__file__))
# the files that the page asks for by their names (web/files.mjs)
HELD = ["nuigatre.wasm", "example/main.wasm", "example/adapter.wasm", "example/notes.json", "wasi-command.json"]
IMPORT = re.compile(r'^import \{([^}]*)\} from "\./([\w-]+)\.mjs";\n', re.M)
EXPORT = re.compile(r"^export (?=(?:async )?(?:class|const|function) (\w+))", re.M)


def content_of(name):
    with open(os.path.join(HERE, name), "rb") as file:
        return file.read()


def text_of(name):
    return content_of(name).decode("utf-8")


def variable(module):
    return "module_" + module.replace("-", "_")


def bundle(module, done):
    """A module of web/ and those that it imports, each once: a function that returns what it exports."""
    if module in done:
        return ""
    done.add(module)
    code = text_of(module + ".mjs")
    before = "".join(bundle(other, done) for _, other in IMPORT.findall(code))
    names = EXPORT.findall(code)
    code = IMPORT.sub(lambda it: "const {%s} = %s;\n" % (it[1], variable(it[2])), EXPORT.sub("", code))
    # there is no file beside this one
    code = code.replace("import.meta.url", "location.href")
    if re.search(r"^(?:import|export)\b", code, re.M):
        raise SystemExit("web/one-file.py: web/%s.mjs has an import or an export in another form" % module)
    return "%sconst %s = (() => {\n%s\nreturn { %s };\n})();\n" % (before, variable(module), code, ", ".join(names))


def digest(text):
    return "'sha256-%s'" % base64.b64encode(hashlib.sha256(text.encode()).digest()).decode()


def held(name, content):
    return '<script type="text/plain" data-file="%s">%s</script>\n' % (name, base64.b64encode(content).decode())


def replaced(text, old, new):
    if text.count(old) != 1:
        raise SystemExit("web/one-file.py: web/index.html has %r %d times" % (old, text.count(old)))
    return text.replace(old, new)


def page():
    """The page's text."""
    script, style = "\n" + bundle("page", set()), "\n" + text_of("page.css")
    if "</script" in script.lower() or "</style" in style.lower() or "<!--" in script:
        raise SystemExit("web/one-file.py: a script or the style would end in its middle")
    policy = ["default-src 'none'", "script-src %s 'wasm-unsafe-eval'" % digest(script), "worker-src blob:",
              "style-src " + digest(style), "img-src data:", "base-uri 'none'", "form-action 'none'"]
    files = held("worker.mjs", bundle("worker", set()).encode()) + "".join(held(name, content_of(name)) for name in HELD)
    text = text_of("index.html")
    given = re.search(r'Content-Security-Policy" content="([^"]*)"', text)[1]
    text = replaced(text, given, "; ".join(policy))
    text = replaced(text, '<link rel="stylesheet" href="page.css">', "<style>%s</style>" % style)
    return replaced(text, '<script type="module" src="page.mjs"></script>\n', files + '<script type="module">%s</script>\n' % script)


def main():
    parser = argparse.ArgumentParser(description=__doc__, formatter_class=argparse.RawDescriptionHelpFormatter)
    parser.add_argument("out", nargs="?", default=os.path.join(HERE, "nuigatre.html"), metavar="OUT")
    out, text = parser.parse_args().out, page()
    with open(out, "w", encoding="utf-8", newline="\n") as file:
        file.write(text)
    print("%s: %s bytes" % (os.path.relpath(out), format(len(text.encode()), ",")))
    return 0


if __name__ == "__main__":
    sys.exit(main())
