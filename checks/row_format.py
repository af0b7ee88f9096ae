"""Rows of the tests, read: docs/ROWS.md has their form."""
import re


ESCAPES = {'"': '\\"', "\\": "\\\\", "\n": "\\n", "\r": "\\r", "\t": "\\t", "\0": "\\0"}


def quoted(text):
    """A text as Rust's `{:?}` has it."""
    return '"' + "".join(ESCAPES.get(sign) or (sign if sign.isprintable() else "\\u{%x}" % ord(sign)) for sign in text) + '"'


class BadRow(Exception):
    """What is wrong with a row, and the text that it is about, if it is about one: as `no call "x"`."""

    def __init__(self, what, text=None):
        super().__init__(what if text is None else f"{what} {quoted(text)}")


class LeftOut(Exception):
    """Why a row isn't asked: what the machine doesn't allow."""


class Missing(LeftOut):
    """The program or the library that a row asks isn't there."""


class Row:
    """A row: its name, its call with the arguments, its lines of input and those of its answer; and what is wrong with it.
    `lines` are its own lines, with those of its fixtures in their places."""

    def __init__(self, name):
        self.name, self.call, self.arguments, self.input, self.answer, self.flaw = name, "", [], [], [], None
        self.lines = []

    def text(self):
        """A text of this row alone."""
        return "\n".join(["row " + self.name, *self.lines, ""])

    def argument(self, at):
        """The argument at an index; the empty text where there are fewer."""
        return self.arguments[at] if at < len(self.arguments) else ""

    def number(self, at, what="number"):
        """The number that the argument at an index is."""
        text = self.argument(at)
        if not re.fullmatch("[0-9]+", text):
            raise BadRow("no " + what, text)
        return int(text)

    def add(self, line, fixtures):
        """Takes up a line that is no comment and not blank."""
        word, _, rest = line.partition(" ")
        self.lines += fixtures[rest].lines if word == "with" and rest in fixtures else [line]
        if word == "call":
            self.call, _, words = rest.partition(" ")
            self.arguments = words.split()
        elif word == "in":
            self.input.append(rest)
        elif word == "out":
            self.answer.append(rest)
        elif word == "with" and rest in fixtures:
            self.input += fixtures[rest].input
        else:
            self.flaw = self.flaw or (("no fixture", rest) if word == "with" else ("no line of a row", line))


def rows_of(path):
    """The rows of a file, with the lines of their fixtures."""
    return rows_in(path.read_text(encoding="utf-8"))


def rows_in(text):
    """The rows of a text."""
    rows, fixtures, row = [], {}, None
    for line in text.splitlines():
        line = line.rstrip()
        word, _, rest = line.partition(" ")
        if not line:
            row = None
        elif line.startswith("#"):
            continue
        elif word in ("row", "fixture"):
            row = Row(rest)
            if word == "row":
                rows.append(row)
            else:
                fixtures.setdefault(rest, row)
        else:
            if row is None:
                row = Row("")
                rows.append(row)
            row.add(line, fixtures)
    return rows


def bytes_of(lines):
    """The bytes that lines of input say; a BadRow where they say none."""
    made = bytearray()
    for line in lines:
        count, rest = re.fullmatch(r"(?:repeat (\d+) )?(.*)", line).groups()
        copied = bytearray()
        for at, piece in enumerate(rest.split('"')):
            front, has_comment, _ = piece.partition("#")
            if at % 2:
                copied += piece.encode()
                continue
            try:
                copied += bytes.fromhex(front)
            except ValueError:
                raise BadRow("no hex", front) from None
            if has_comment:
                break
        made += bytes(copied) * int(count or 1)
    return bytes(made)


def lines_of_bytes(word, data):
    """Lines of 32 bytes each after a word; the word alone if there is no byte."""
    return [(word + " " + data[at : at + 32].hex(" ")).rstrip() for at in range(0, max(len(data), 1), 32)]


def answered_bytes(row, word="bytes"):
    """The bytes of the lines of an answer that begin with a word; None if there is none."""
    lines = [line[len(word):] for line in row.answer if line.partition(" ")[0] == word]
    return bytes.fromhex("".join(lines)) if lines else None
