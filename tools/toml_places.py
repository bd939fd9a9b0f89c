"""Where the keys and values of a TOML document stand in its text. The document is one that Python's own reader takes."""
import re
from typing import NamedTuple

BARE = re.compile(r"[A-Za-z0-9_-]+")
PLAIN = re.compile(r"[^\s,\]}#]+")
SPACE = re.compile(r"[ \t]*")
CONTENT = re.compile(r"(?:\s|#[^\n]*)*")


class Span(NamedTuple):
    """A part of the text: where it begins, and where it ends."""

    start: int
    end: int


class Places:
    """The places of a document's keys and values, each by its path, as ("object", 2, "kind"). `values` has what was read there, to be
    compared with what the other reader gives; `opens` has where a table's header stands, and `strings` the strings without escapes."""

    def __init__(self, text: str):
        self.text, self.at = text, 0
        self.keys, self.values, self.opens, self.strings = {}, {}, {}, set()
        self.read = {}
        self.counts = {}
        self.document()

    def document(self) -> None:
        table, path = self.read, ()
        while self.skip(CONTENT) < len(self.text):
            if self.text[self.at] == "[":
                table, path = self.header()
            else:
                self.pair(table, path)

    def header(self) -> tuple:
        """The table that a header opens, and its path."""
        start, is_entry = self.at, self.text.startswith("[[", self.at)
        self.at += 2 if is_entry else 1
        keys = self.names()
        self.at += 2 if is_entry else 1
        table, path = self.read, ()
        for number, key in enumerate(keys):
            last = number + 1 == len(keys)
            if last and is_entry:
                table.setdefault(key, []).append({})
            table, path = table.setdefault(key, {}), (*path, key)
            if isinstance(table, list):
                path = (*path, len(table) - 1)
                table = table[-1]
        self.opens[path] = Span(start, self.at)
        if not is_entry:
            self.keys[path] = self.values[path] = self.opens[path]
        return table, path

    def names(self) -> list:
        """The keys of a header or of a pair, with dots between them."""
        found = []
        while True:
            self.skip(SPACE)
            found.append(self.string() if self.text[self.at] in "\"'" else self.take(BARE))
            self.skip(SPACE)
            if self.text[self.at] != ".":
                return found
            self.at += 1

    def pair(self, table: dict, path: tuple) -> None:
        start = self.at
        *fronts, last = self.names()
        for front in fronts:
            table, path = table.setdefault(front, {}), (*path, front)
        path = (*path, last)
        self.keys[path] = Span(start, len(self.text[: self.at].rstrip(" \t")))
        self.at += 1
        self.skip(SPACE)
        table[last] = self.value(path)

    def value(self, path: tuple):
        start = self.at
        first = self.text[start]
        if first in "\"'":
            found = self.string()
            if self.at - start == len(found) + 2 and (first == "'" or "\\" not in found):
                self.strings.add(path)
        elif first == "[":
            found = self.array(path)
        elif first == "{":
            found = self.table(path)
        else:
            found = plain(self.take(PLAIN))
        self.values[path] = Span(start, self.at)
        return found

    def array(self, path: tuple) -> list:
        self.at += 1
        found = []
        while self.text[self.skip(CONTENT)] != "]":
            found.append(self.value((*path, len(found))))
            if self.text[self.skip(CONTENT)] == ",":
                self.at += 1
        self.at += 1
        return found

    def table(self, path: tuple) -> dict:
        self.opens[path] = Span(self.at, self.at + 1)
        self.at += 1
        found = {}
        while self.text[self.skip(SPACE)] != "}":
            self.pair(found, path)
            if self.text[self.skip(SPACE)] == ",":
                self.at += 1
        self.at += 1
        return found

    def string(self) -> str:
        quote = self.text[self.at]
        quotes = quote * 3 if self.text.startswith(quote * 3, self.at) else quote
        start = self.at = self.at + len(quotes)
        while not self.text.startswith(quotes, self.at):
            self.at += 2 if self.text[self.at] == "\\" and quote == '"' else 1
        end, self.at = self.at, self.at + len(quotes)
        return self.text[start:end]

    def take(self, pattern) -> str:
        found = pattern.match(self.text, self.at)
        self.at = found.end()
        return found[0]

    def skip(self, pattern) -> int:
        self.at = pattern.match(self.text, self.at).end()
        return self.at


def plain(word: str):
    """A value that is no string: a whole number, a truth value, or its own text."""
    if word in ("true", "false"):
        return word == "true"
    try:
        return int(word, 0)
    except ValueError:
        return word
