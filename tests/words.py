"""The words of a line of a row: docs/ROWS.md, "Worlds"."""
import re

from row_format import BadRow

NUMBER = re.compile(r"\d+")
TOKEN = re.compile(r'[ \t,]+|"((?:[^"\\]|\\.)*)"|([():]|[^ \t,():"][^ \t,()"]*)', re.S)


def words_of(line):
    """The words of a line, each with whether it is quoted; `(`, `)` and the `:` that ends a word are words of their own."""
    words, at = [], 0
    while at < len(line):
        token = TOKEN.match(line, at)
        if not token:
            raise BadRow("a quote is open", line)
        at, (quoted, plain) = token.end(), token.groups()
        if quoted is not None:
            words.append((re.sub(r"\\(.)", lambda it: "\n" if it[1] == "n" else it[1], quoted, flags=re.S), True))
        elif plain and len(plain) > 1 and plain.endswith(":"):
            words += [(plain[:-1], False), (":", False)]
        elif plain:
            words.append((plain, False))
    return words


class Words:
    """The words of a line, and how many of them are read."""

    def __init__(self, line):
        self.line, self.words, self.at = line, words_of(line), 0

    def bad(self, why):
        """Refuses the line."""
        return BadRow(why, self.line)

    def is_done(self):
        """Whether no word is left."""
        return self.at >= len(self.words)

    def end(self):
        """Asks that no word is left."""
        if not self.is_done():
            raise self.bad("more words than are asked for")

    def peek(self):
        """The next word, where it is plain."""
        if self.is_done():
            return None
        text, is_quoted = self.words[self.at]
        return None if is_quoted else text

    def take(self, *texts):
        """Passes the next word, where it is one of these plain ones; the word, or None."""
        word = self.peek()
        if word not in texts:
            return None
        self.at += 1
        return word

    def expect(self, *texts):
        """Takes one of these words."""
        word = self.take(*texts)
        if word is None:
            raise self.bad("no " + " or ".join(texts))
        return word

    def name(self):
        """A name: the next word, plain or quoted."""
        if self.is_done():
            raise self.bad("a name is missing")
        self.at += 1
        return self.words[self.at - 1][0]

    def take_id(self, letter):
        """The number after this letter, where the next word is such an id."""
        word = self.peek() or ""
        if not (word.startswith(letter) and NUMBER.fullmatch(word[1:]) and int(word[1:]) < 2**32):
            return None
        self.at += 1
        return int(word[1:])

    def id(self, letter):
        """Takes an id of this letter."""
        found = self.take_id(letter)
        if found is None:
            raise self.bad("no id " + letter)
        return found

    def number(self):
        """Takes a number."""
        if not NUMBER.fullmatch(self.peek() or ""):
            raise self.bad("no number")
        return int(self.name())

    def times(self):
        """How often what comes before is repeated: `*N`, or once."""
        found = self.take_id("*")
        return 1 if found is None else found

    def until_end(self, item, stop=None):
        """What `item` reads, again and again up to the end of the line or a word, each as often as `*N` says."""
        items = []
        while not self.is_done() and (stop is None or self.peek() != stop):
            found = item()
            items += [found] * self.times()
        return items

    def bytes(self):
        """The bytes of the words that are left: hex, and texts in quotes; `-` for none."""
        if self.take("-"):
            return b""
        made = b""
        while not self.is_done():
            is_text = self.peek() is None
            word = self.name()
            try:
                made += word.encode() if is_text else bytes.fromhex(word)
            except ValueError as error:
                raise self.bad("no hex") from error
        return made
