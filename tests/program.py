"""The programs that tests run, and which of the tests are wanted."""
import functools
import os
import subprocess
import sys
from pathlib import Path

TOP = Path(__file__).resolve().parent.parent


@functools.cache
def program(name: str = "zumode") -> Path:
    """A program, by its script: the proved one where it is built of these sources, or else the one without proof, which is made where it
    isn't there. ZUMODE, or EXPLORE, in the environment names another one."""
    asked = subprocess.run([TOP / name, "--program"], stdin=subprocess.DEVNULL, stdout=subprocess.PIPE, text=True)
    found = Path(asked.stdout.strip() or "no program").resolve()
    os.environ[name.upper()] = str(found)
    return found


def is_wanted(name: str) -> bool:
    """Whether a test is to be made: where the command has no words, or one of them is a part of the test's name."""
    return not sys.argv[1:] or any(word in name for word in sys.argv[1:])


def is_proved(name: str = "zumode") -> bool:
    """Whether a program isn't the one without proof."""
    return program(name) != TOP / "build" / f"unproved-{name}"


def is_built(*names: str) -> bool:
    """Whether there are these programs: without names, zumode. Where one isn't the proved one, this says so."""
    found = True
    for name in names or ["zumode"]:
        found = program(name).is_file() and found
        if not is_proved(name):
            print(f"run with a {name} that isn't proved; ./prove builds the proved one", flush=True)
    return found
