"""The programs of the repository, each with the crate whose `main` it is, and with the words by which the kit runs it on an example. Tools
import it."""
from pathlib import Path
from typing import NamedTuple

TOP = Path(__file__).resolve().parent.parent
BUILD = TOP / "build"
EXAMPLE = TOP / "examples" / "last-byte.toml"


class Program(NamedTuple):
    crate: str
    words: list


PROGRAMS = {"zumode": Program("um_cli", ["sim"]), "explore": Program("um_explore_cli", ["ends"])}
