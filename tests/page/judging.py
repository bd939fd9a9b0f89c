"""What the tests of pages and documents share: the places of files, what a test needs, and how it says no."""
import functools
import shutil
from pathlib import Path

TOP = Path(__file__).resolve().parent.parent.parent
EXAMPLES = TOP / "examples"
VIEWER = TOP / "viewer"
BUILD = TOP / "build"


class Wrong(Exception):
    """What a test saw isn't what it wanted."""


class NotRun(Exception):
    """A test couldn't be made, and why."""


def same(what: str, seen, wanted) -> None:
    if seen != wanted:
        raise Wrong(f"{what}: {seen!r}, wanted {wanted!r}")


def holds(what: str, truth: bool) -> None:
    if not truth:
        raise Wrong(what)


def needs(*programs: str):
    """Marks a test that needs these programs."""

    def mark(test):
        @functools.wraps(test)
        def guarded(*arguments):
            lacking = [name for name in programs if shutil.which(name) is None]
            if lacking:
                raise NotRun(f"{' and '.join(lacking)} can't be found; tests/pages --install installs it")
            return test(*arguments)

        return guarded

    return mark


def words_of(source: Path) -> list:
    """The command's words of an example."""
    beside = source.with_suffix(".words")
    return beside.read_text().split() if beside.exists() else ["sim"]


def fault_of(source: Path) -> str:
    """The kind of the fault that an example's description is refused with, or nothing."""
    beside = source.with_suffix(".err")
    text = beside.read_text() if beside.exists() else ""
    return text.split()[2] if text.startswith("zumode: refused: ") else ""


def runs() -> list:
    """The examples whose output is that of sim."""
    return [
        source
        for source in sorted(EXAMPLES.glob("*.toml"))
        if words_of(source) == ["sim"] and source.with_suffix(".out").stat().st_size > 0
    ]


def together(name: str) -> str:
    """An example's description and output as one text."""
    source = EXAMPLES / name
    return source.with_suffix(".toml").read_text() + "=====\n" + source.with_suffix(".out").read_text()
