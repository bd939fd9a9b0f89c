"""A description and a text with very many lines of events. It is no run, and is only for the speed of the page."""
import random

THREADS = 28


def many_events(count: int) -> tuple:
    description = [
        "version = 1",
        'mpu = "pmsav7"',
        "regions = 8",
        'oops = "abort"',
        'domain = [{name = "d", partitions = []}]',
        "object = [",
    ]
    for thread in range(THREADS):
        description.append(
            f'{{name = "t{thread}", kind = "thread"}}, {{name = "k{thread}", kind = "thread_stack", size = 128}},'
        )
    description += [
        '{name = "s0", kind = "sem", count = 1, limit = 4}, {name = "s1", kind = "sem", count = 1, limit = 4}]'
    ]
    for thread in range(THREADS):
        description += [
            "[[boot]]",
            f'thread = "t{thread}"',
            f'stack = "k{thread}"',
            'script = "c"',
            "priority = 0",
            'domain = "d"',
            'grants = ["s0", "s1"]',
        ]
    description += ["[[script]]", 'name = "c"', 'lines = ["k_sem_take @s0 K_NO_WAIT"]']
    return "\n".join(description) + "\n", "\n".join(event_lines(count)) + "\n"


def event_lines(count: int) -> list:
    draw = random.Random(1)
    lines = []
    while len(lines) < count:
        thread, other = f"t{draw.randrange(THREADS)}", f"t{draw.randrange(THREADS)}"
        lines += [
            f"{thread} begin c 1",
            f"{thread} check s0 sem init ok",
            f"{thread} act s0 EBUSY",
            f"{thread} reply EBUSY",
        ]
        if draw.random() < 0.001:
            lines += [
                f"{thread} begin c 1",
                f"{thread} act s1 wait",
                f"{other} act s1 void wake {thread} 0",
                f"{thread} resume",
            ]
        if draw.random() < 0.0005:
            lines.append(f"{thread} fault read 0x20000000 4")
    return lines[:count]
