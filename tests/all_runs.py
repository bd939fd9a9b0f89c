"""All runs of a small description, step by step, by `next` alone. tests/explore imports it.

Two beginnings of runs are taken for one where each thread has the same lines in them, and the lines that others may notice stand in the same
order. What the other lines do, others notice by a line of their own at most.
"""
import tomllib
from typing import NamedTuple

from explored import Told, failures_of, next_lines, threads_of

# The second words of lines that nobody else notices, or only by what a line of his own says.
ALONE = {"begin", "check", "load", "probe", "reply", "resume", "exit", "killed", "user", "fatal", "fault", "erase", "name", "uninit"}
# Those of lines that are of no instruction of the thread that makes them.
TENDING = {"recycle", "tick", "timeout", "expire", "cut"}
MOST_BEGINNINGS = 6000


class Runs(NamedTuple):
    """How all runs end, each way with the least number of its events, and each line with the place at which it comes first in any run. For
    each question the least number of events behind which a run comes to it, where any does. And the keys of all complete runs."""

    ends: dict
    lines: dict
    met: dict
    complete: set


def is_alone(line: str) -> bool:
    actor, word, *rest = line.split()
    return word in ALONE or [word, *rest] == ["drop", actor, actor, "kept"]


def key_of(lines: tuple) -> tuple:
    of_each = {}
    for line in lines:
        of_each.setdefault(line.split()[0], []).append(line)
    return tuple(sorted((thread, *own) for thread, own in of_each.items())), tuple(line for line in lines if not is_alone(line))


def status_of(lines: list) -> str:
    """How a thread that isn't doomed ends, by its own lines: it has ended, or waits, for whom it waits, or is at rest."""
    own = [line.split() for line in lines if line.split()[1] not in TENDING]
    began = max((k for k, words in enumerate(own) if words[1] == "begin"), default=0)
    if any(words[1] in ("exit", "killed", "fatal") for words in own[began:]):
        return "ended"
    if own and own[-1][-1] == "wait":
        return f"waits:{own[-1][3 if own[-1][1] == 'futex' else 2]}"
    return "ready"


def short_way(way: tuple) -> tuple:
    """Of a way to end, the name and the status of each thread that was started, and the failures."""
    threads = [line.split() for line in way if line.startswith("thread ")]
    return tuple(f"{name} {status}" for _, name, status, *_ in threads if status != "unborn"), way[len(threads) :]


def short_way_of_run(given: bytes, lines: tuple) -> tuple:
    """The same, read off a run's own lines."""
    words, names = [line.split() for line in lines], threads_of(given)[:-4]
    there = {one["thread"] for one in tomllib.loads(given.decode())["boot"]} | {one[2] for one in words if one[1] == "start"}
    doomed = {name for index, name in enumerate(names) if any(one[1:] == ["doom", str(index)] for one in words)}
    own = {name: [line for line in lines if line.split()[0] == name] for name in names if name in there}
    statuses = tuple(f"{name} {'doomed' if name in doomed else status_of(of_it)}" for name, of_it in own.items())
    return statuses, tuple(failures_of(given, list(lines)))


def all_runs(given: bytes, questions: list, pool) -> Runs:
    """All runs of a description, one event after another."""
    runs, level, count = Runs({}, {}, {}, set()), {key_of(()): ()}, 0
    while level:
        count += len(level)
        if count > MOST_BEGINNINGS:
            raise ValueError(f"more than {MOST_BEGINNINGS} beginnings of runs")
        depth, ahead = len(next(iter(level.values()))), {}
        for lines in level.values():
            note_met(given, lines, questions, runs.met)
        for (key, lines), follow in zip(level.items(), pool.map(lambda lines: next_lines(given, lines), level.values())):
            if not follow:
                runs.complete.add(key)
                runs.ends.setdefault(short_way_of_run(given, lines), depth)
            for line in follow:
                runs.lines.setdefault(line, depth + 1)
                ahead.setdefault(key_of((*lines, line)), (*lines, line))
        level = ahead
    return runs


def note_met(given: bytes, lines: tuple, questions: list, met: dict) -> None:
    """Notes the questions to which these lines come first."""
    told = Told(given)
    for line in lines:
        told.goes_on(line)
    for question in questions:
        if question not in met and told.meets(question):
            met[question] = len(lines)
