"""Descriptions of as many threads as there may be, up to the greatest weight."""

THREADS = 28
OBJECTS = 96
MOST_WEIGHT = 400_000
# What a script and a line cost, by the weight of a description.
SCRIPT_COST, SET_COST, CALL_COST = 240, 4, 40
# A line that touches nothing, and one that every thread may make on the same semaphore.
QUIET, GIVE = "set r0 0", "k_sem_give @s0"


def listed(count: int, entry: str) -> list:
    """So many entries, each with its number, from 0 on, for the mark `#`."""
    return [entry.replace("#", str(k)) for k in range(count)]


def described(lines: list) -> bytes:
    """A description that fills each section, in which each thread makes these lines."""
    objects = listed(THREADS, '{name = "t#", kind = "thread"}') + listed(THREADS, '{name = "k#", kind = "thread_stack", size = 32}')
    script = ", ".join(f'"{line}"' for line in lines)
    sections = {
        "pool": listed(4, '{name = "h#", size = 65536}'),
        "partition": listed(32, '{name = "p#", size = 32, attr = "P_RW_U_RW"}'),
        "domain": listed(8, '{name = "d#", partitions = ["p0", "p1", "p2", "p3", "p4"]}'),
        "object": objects + listed(OBJECTS - len(objects), '{name = "s#", kind = "sem", count = 0, limit = 4294967295}'),
        "boot": listed(THREADS, '{thread = "t#", stack = "k#", script = "m", priority = 0, domain = "d0", grants = ["s0"]}'),
        "script": [f'{{name = "m", lines = [{script}]}}', *listed(31, f'{{name = "m#", lines = ["{QUIET}"]}}')],
    }
    head = 'version = 1\nmpu = "pmsav7"\nregions = 8\noops = "abort"\n'
    return (head + "".join(f"{key} = [{', '.join(entries)}]\n" for key, entries in sections.items())).encode()


def heavy(line: str, cost: int) -> bytes:
    """A description that weighs as much as one may in which each thread makes the same script, nearly all of it this line."""
    many, rest = divmod(MOST_WEIGHT // THREADS - SCRIPT_COST, cost)
    return described(["repeat 100", *[line] * (many // 100), "end", *[line] * (many % 100), *[QUIET] * (rest // SET_COST)])
