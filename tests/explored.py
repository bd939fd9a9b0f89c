"""What the program explore answers, and what runs say, read off their lines alone. tests/explore imports it."""
import functools
import re
import subprocess
import tomllib
from typing import NamedTuple

from program import program

SECONDS = 120
BETWEEN = b"=====\n"
HEADING = re.compile(r"end (\d+): (\d+) states, (\d+) events(, a thread waits for good)?")
INDENT = "  "
DYNAMIC_THREADS = [f"#{j}" for j in range(4)]


def ran(name: str, words: list, given: bytes) -> subprocess.CompletedProcess:
    """A run of one of the programs."""
    return subprocess.run([program(name), *words], input=given, capture_output=True, timeout=SECONDS, check=False)


def asked(words: list, given: bytes) -> subprocess.CompletedProcess:
    return ran("explore", words, given)


def next_lines(given: bytes, lines: list) -> list:
    """The lines that can come next behind these, or the one line that says that one of them isn't that of a step."""
    text = "".join(f"{line}\n" for line in lines).encode()
    answer = asked(["next"], given + BETWEEN + text)
    if answer.returncode or answer.stderr:
        raise ValueError(f"next: status {answer.returncode}, {answer.stderr.decode()!r}")
    return answer.stdout.decode().splitlines()


def verdict(given: bytes, text: bytes) -> str:
    """What the audit says of a text."""
    return ran("zumode", ["audit"], given + BETWEEN + text).stdout.decode().rstrip()


class Ending(NamedTuple):
    """A way in which runs end, as `ends` tells it: in how many states, behind how many events at least, whether a thread waits, the lines
    of threads and failures, and the lines of a run."""

    states: int
    events: int
    waits: bool
    way: tuple
    lines: list


def endings_of(text: str) -> list:
    """The ends in a text of `ends`, in its order. A line that doesn't belong there is a fault."""
    found = []
    for line in text.splitlines():
        head = HEADING.fullmatch(line)
        if head and int(head[1]) == len(found) + 1:
            found.append(Ending(int(head[2]), int(head[3]), bool(head[4]), (), []))
        elif not found or head:
            raise ValueError(f"no line of an end: {line!r}")
        elif line.startswith(INDENT):
            found[-1].lines.append(line.removeprefix(INDENT))
        elif found[-1].lines:
            raise ValueError(f"a line of a way behind those of its run: {line!r}")
        else:
            found[-1] = found[-1]._replace(way=(*found[-1].way, line))
    return found


@functools.cache
def threads_of(given: bytes) -> list:
    """The names of the threads that a description may have, by their index."""
    objects = tomllib.loads(given.decode()).get("object", [])
    return [one["name"] for one in objects if one["kind"] == "thread"] + DYNAMIC_THREADS


def failures_of(given: bytes, lines: list) -> list:
    """The fatal error of each thread that failed and wasn't started again, by the index of the thread."""
    failed = {}
    for line in lines:
        thread, word, *more = line.split()
        if word == "fatal":
            failed[thread] = line
        elif word == "start":
            failed.pop(more[0], None)
    return [failed[thread] for thread in threads_of(given) if thread in failed]


def way_of(given: bytes, text: str) -> tuple:
    """The way in which a run ends, by its text: the dump's lines of threads, and the failures. With the number of its events."""
    lines = text.splitlines()
    dump = lines.index("dump")
    threads = [line for line in lines[dump:] if line.startswith("thread ")]
    return (*threads, *failures_of(given, lines[:dump])), dump


@functools.cache
def ranges_of(given: bytes) -> dict:
    """The first byte and the size of each partition, thread stack and other object, as `layout` prints them."""
    found = {}
    for line in ran("zumode", ["layout"], given).stdout.decode().splitlines():
        what, *words = line.split()
        if what == "partition":
            found[words[0]] = int(words[1], 16), int(words[2])
        elif what == "object":
            found[words[0]] = int(words[2], 16), int(words[3]) if len(words) > 3 else 64
    return found


def bytes_of(words: list) -> tuple:
    """How an event touches memory, from where on, and how many bytes, by the words of its line."""
    match words[1:]:
        case ["load", address, size, _] | ["copyin", address, size, "ok"]:
            return "reads", int(address, 16), int(size)
        case ["copystr", address, "toolong"]:
            return "reads", int(address, 16), 32
        case ["copystr", address, size] if size.isdecimal():
            return "reads", int(address, 16), int(size) + 1
        case ["store", address, size, _] | ["copyout", address, size, "ok"]:
            return "writes", int(address, 16), int(size)
        case ["exec", address]:
            return "executes", int(address, 16), 4
    return "", 0, 0


class Told:
    """What the lines of a run tell of its last event and of the state behind it, line by line."""

    def __init__(self, given: bytes):
        description = tomllib.loads(given.decode())
        self.ranges = ranges_of(given)
        self.public = {one["name"] for one in description.get("object", []) if one.get("public")}
        self.held = {(one["thread"], held) for one in description.get("boot", []) for held in [one["thread"], *one.get("grants", [])]}
        self.waits, self.gone, self.words = {}, set(), []

    def goes_on(self, line: str) -> None:
        self.words = words = line.split()
        actor, what, *rest = words
        if what in ("grant", "own", "inherit") and rest[-1] != "gone":
            self.held.add((rest[0], rest[0] if what == "own" else rest[1]))
        elif what == "drop":
            self.held.discard((rest[0], rest[1]))
            self.gone |= {rest[1]} if rest[2] == "gone" else set()
        elif what == "born":
            self.held.add((actor, rest[0]))
        elif what == "public" and rest[1] == "ok":
            self.public.add(rest[0])
        elif what == "recycle":
            self.gone.discard(rest[0])
            self.public.discard(rest[0])
        elif what in ("act", "join") and rest[1] == "wait":
            self.waits[actor] = rest[0]
        woken = [words[k + 1] for k in range(3, len(words) - 1) if words[k] == "wake"]
        for thread in woken + (rest[:1] if what in ("timeout", "cut") else []):
            self.waits.pop(thread, None)

    def meets(self, question: str) -> bool:
        """Whether the run has come to what a question in words asks, or its last line is of the form."""
        first, second, *rest = question.split()
        match [second, *rest]:
            case ["fails"]:
                return self.words[:2] == [first, "fatal"]
            case ["gone"]:
                return first in self.gone
            case ["holds", name]:
                return (first, name) in self.held or name in self.public
            case ["waits", name]:
                return self.waits.get(first) == name
            case ["reads" | "writes" | "executes", name]:
                return self.touches(first, second, name)
        form = question.split()
        return len(form) == len(self.words) and all(one in ("*", word) for one, word in zip(form, self.words))

    def touches(self, thread: str, way: str, name: str) -> bool:
        if self.words[:1] != [thread]:
            return False
        how, start, size = bytes_of(self.words)
        place, length = self.ranges[name]
        return how == way and max(start, place) < min(start + size, place + length)


def first_met(given: bytes, lines: list, question: str):
    """Behind how many of the lines a question is met first, or None."""
    told = Told(given)
    if told.meets(question):
        return 0
    for count, line in enumerate(lines, 1):
        told.goes_on(line)
        if told.meets(question):
            return count
    return None
