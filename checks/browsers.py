"""Chromium and Firefox without a window, which open an address and evaluate expressions there.

Chromium is asked over a pipe, in the protocol of its developer tools; Firefox over a port of this machine, by Marionette.
Debian has no driver for Firefox, which python3-selenium would need.
"""
import json
import os
import shutil
import socket
import subprocess
import tempfile
import time

SECONDS = 300

# the number and the text of keys that are no character
KEYS = {"Tab": (9, ""), "Enter": (13, "\r"), "Escape": (27, ""), "End": (35, ""), "Home": (36, ""), "ArrowUp": (38, ""), "ArrowDown": (40, "")}


class Failed(Exception):
    """A browser does not do what it is asked."""


class Chromium:
    """A chromium of a fresh profile, in a folder."""

    name, programs = "chromium", ("chromium", "chromium-browser", "google-chrome")

    def __init__(self, program, folder):
        (given, self.to), (self.answers, taken) = os.pipe(), os.pipe()
        words = [program, "--headless", "--no-sandbox", "--disable-gpu", "--remote-debugging-pipe", "--user-data-dir=" + folder, "about:blank"]
        # the pipe has the numbers 3 and 4 there
        lines = 'exec 3<&%d 4>&%d; exec "$@"' % (given, taken)
        how = {"stdout": subprocess.DEVNULL, "stderr": subprocess.DEVNULL, "pass_fds": (given, taken)}
        self.process = subprocess.Popen(["bash", "-c", lines, "bash", *words], **how)
        os.close(given)
        os.close(taken)
        self.rest, self.count, self.session = b"", 0, None
        target = next(it for it in self.call("Target.getTargets")["targetInfos"] if it["type"] == "page")["targetId"]
        self.session = self.call("Target.attachToTarget", targetId=target, flatten=True)["sessionId"]

    def call(self, method, **parameters):
        self.count += 1
        message = {"id": self.count, "method": method, "params": parameters, **({"sessionId": self.session} if self.session else {})}
        os.write(self.to, json.dumps(message).encode() + b"\0")
        while True:
            while b"\0" not in self.rest:
                chunk = os.read(self.answers, 1 << 16)
                if not chunk:
                    raise Failed("chromium has ended")
                self.rest += chunk
            text, _, self.rest = self.rest.partition(b"\0")
            answer = json.loads(text)
            if answer.get("id") == self.count:
                if "error" in answer:
                    raise Failed(answer["error"]["message"])
                return answer["result"]

    def open(self, address):
        self.call("Page.navigate", url=address)

    def ask(self, expression):
        """The value of an expression, which is JSON."""
        answer = self.call("Runtime.evaluate", expression=expression, returnByValue=True)
        if "exceptionDetails" in answer:
            raise Failed(json.dumps(answer["exceptionDetails"])[:500])
        return answer["result"].get("value")

    def press(self, key, shift=False):
        """Presses a key and lets it go, as a keyboard does."""
        number, text = KEYS[key]
        event = {"key": key, "code": key, "windowsVirtualKeyCode": number, "nativeVirtualKeyCode": number, "modifiers": 8 if shift else 0}
        self.call("Input.dispatchKeyEvent", type="keyDown" if text else "rawKeyDown", **event, **({"text": text} if text else {}))
        self.call("Input.dispatchKeyEvent", type="keyUp", **event)

    def resize(self, width, height):
        self.call("Emulation.setDeviceMetricsOverride", width=width, height=height, deviceScaleFactor=1, mobile=False)

    def close(self):
        self.process.kill()
        self.process.wait()
        os.close(self.to)
        os.close(self.answers)


class Firefox:
    """A firefox of a fresh profile, in a folder."""

    name, programs = "firefox", ("firefox-esr", "firefox")

    def __init__(self, program, folder):
        with socket.socket() as free:
            free.bind(("127.0.0.1", 0))
            port = free.getsockname()[1]
        with open(os.path.join(folder, "user.js"), "w", encoding="utf-8") as file:
            file.write('user_pref("marionette.port", %d);\n' % port)
        words = [program, "--headless", "--no-remote", "--marionette", "--profile", folder]
        self.process = subprocess.Popen(words, stdout=subprocess.DEVNULL, stderr=subprocess.DEVNULL)
        self.count, self.rest, self.socket = 0, b"", self.connected(port)
        # it says first who it is
        self.message()
        self.call("WebDriver:NewSession")

    def connected(self, port):
        end = time.monotonic() + SECONDS
        while time.monotonic() < end and self.process.poll() is None:
            try:
                return socket.create_connection(("127.0.0.1", port), timeout=SECONDS)
            except OSError:
                time.sleep(0.2)
        raise Failed("firefox does not answer")

    def message(self):
        while True:
            length, found, rest = self.rest.partition(b":")
            if found and len(rest) >= int(length):
                self.rest = rest[int(length):]
                return json.loads(rest[:int(length)])
            chunk = self.socket.recv(1 << 16)
            if not chunk:
                raise Failed("firefox has ended")
            self.rest += chunk

    def call(self, method, **parameters):
        self.count += 1
        text = json.dumps([0, self.count, method, parameters]).encode()
        self.socket.sendall(b"%d:%s" % (len(text), text))
        _, _, fault, result = self.message()
        if fault:
            raise Failed(fault["message"])
        return result

    def open(self, address):
        self.call("WebDriver:Navigate", url=address)

    def ask(self, expression):
        """The value of an expression, which is JSON."""
        return self.call("WebDriver:ExecuteScript", script="return " + expression, args=[])["value"]

    def close(self):
        self.socket.close()
        self.process.kill()
        self.process.wait()


def program_of(browser):
    """The program of a browser; None if there is none."""
    return next(filter(None, map(shutil.which, browser.programs)), None)


def show_example(make_page):
    """Opens a page, which a function makes at a path, from a disk in each browser, until it shows its example; their names."""
    there = [kind for kind in (Chromium, Firefox) if program_of(kind)]
    for kind in there:
        with tempfile.TemporaryDirectory(ignore_cleanup_errors=True) as folder, tempfile.TemporaryDirectory(ignore_cleanup_errors=True) as profile:
            path = os.path.join(folder, "nuigatre.html")
            make_page(path)
            browser = kind(program_of(kind), profile)
            try:
                browser.open(f"file://{path}?example&seconds={SECONDS}")
                waited(browser, '(document.querySelector("#numbers")?.textContent.length ?? 0) > 0')
                numbers, faults = (browser.ask('document.querySelector("#%s").textContent' % it) for it in ("numbers", "faults"))
            finally:
                browser.close()
        if faults or "512 bytes → 317 bytes" not in numbers:
            raise Failed(f"{kind.name}: {numbers} {faults}")
    return [kind.name for kind in there]


def waited(browser, expression):
    """Waits until an expression is true."""
    end = time.monotonic() + SECONDS
    while time.monotonic() < end:
        if browser.ask(expression):
            return
        time.sleep(0.1)
    raise Failed("not after %d seconds: %s" % (SECONDS, expression))
