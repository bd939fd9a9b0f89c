"""Where a fault that the program tells stands in a description."""
import re
import tomllib
from typing import NamedTuple

from toml_places import Places, Span

STEP = re.compile(r"\.?(\w+)|\[(\d+)\]")


class Fault(NamedTuple):
    """A fault: its title, its place in the text, if it was found, and further lines about it."""

    title: str
    start: int | None
    end: int | None
    lines: list


class Description:
    """A description with the places of its keys and values. Raises LookupError where they can't be told for sure."""

    def __init__(self, text: str):
        self.text = text
        self.table = tomllib.loads(text)
        self.places = Places(text)
        if not agrees(self.places.read, self.table):
            raise LookupError("the places aren't those of the values")

    def get(self, path: tuple, default=None):
        """The value at a path."""
        value = self.table
        for step in path:
            try:
                value = value[step]
            except (KeyError, IndexError, TypeError):
                return default
        return value

    def entries(self, section: str) -> list:
        """The tables of a section, as far as they are some."""
        found = self.table.get(section, [])
        return [entry for entry in found if isinstance(entry, dict)] if isinstance(found, list) else []

    def named(self, section: str, kind: str = "") -> list:
        """The names of a section's entries, or of those objects that are of a kind."""
        names = [entry.get("name") for entry in self.entries(section) if kind in ("", entry.get("kind"))]
        return [name for name in names if isinstance(name, str)]

    def variables(self) -> list:
        found = [variable for entry in self.entries("partition") for variable in entry.get("vars", [])]
        return [variable["name"] for variable in found if "name" in variable]

    def spot(self, path: tuple) -> Span | None:
        """Where the value at a path stands, or else the key, or where its table opens."""
        places = self.places
        return places.values.get(path) or places.keys.get(path) or places.opens.get(path)

    def key_spot(self, path: tuple) -> Span | None:
        return self.places.keys.get(path) or self.spot(path)

    def nearest(self, path: tuple) -> Span | None:
        """Where the nearest table round a path opens, for a key that isn't there."""
        while path:
            path = path[:-1]
            found = self.places.opens.get(path) or self.places.values.get(path)
            if found:
                return Span(found.start, found.start + 1) if self.text[found.start] == "{" else found
        return None

    def inside(self, path: tuple, column: int, length: int) -> Span | None:
        """A part of a string, by its column in bytes, where the text shows the string as it is."""
        value, span = self.get(path), self.spot(path)
        if path not in self.places.strings or span is None or not isinstance(value, str):
            return span
        characters = len(value.encode()[: column - 1].decode(errors="ignore"))
        start = span.start + 1 + characters
        return Span(start, start + max(1, length))


def agrees(mine, theirs) -> bool:
    """Whether what was read with places is what the other reader gives. Strings with escapes are passed over."""
    if isinstance(mine, dict) and isinstance(theirs, dict):
        return mine.keys() == theirs.keys() and all(agrees(mine[key], theirs[key]) for key in mine)
    if isinstance(mine, list) and isinstance(theirs, list):
        return len(mine) == len(theirs) and all(map(agrees, mine, theirs))
    if isinstance(mine, str):
        return mine == theirs or "\\" in mine or "\n" in mine or not isinstance(theirs, str)
    return type(mine) is type(theirs) and mine == theirs


def path_of(place: str) -> tuple:
    """A place such as partition[0].vars[1].size as a path."""
    return tuple(key if key else int(number) for key, number in STEP.findall(place))
