"""Descriptions drawn by a number, whose threads abort, join, suspend, resume and create one another, wait to deadlines and share a futex."""
import random

WAITS = ["K_NO_WAIT", "K_FOREVER", "K_TICKS(1)", "K_TICKS(2)", "K_TICKS(5)"]
# Lines in which {t} is the number of a thread, {c} that of a script behind the line's own, {wait} a timeout and {few} a small number.
STOPS = ["k_thread_abort @t{t}", "k_thread_suspend @t{t}", "k_thread_resume @t{t}", "k_thread_join @t{t} {wait}", "k_thread_create @t{t} @k{t} 64 c{c} {few} K_USER+K_INHERIT_PERMS"]
WAITING = ["k_sem_take @s {wait}", "k_sem_give @s", "k_mutex_lock @m {wait}", "k_mutex_unlock @m", "k_msgq_put @q @p+8 {wait}", "k_msgq_get @q @p+12 {wait}"]
TIMED = ["k_timer_start @w {few}", "k_timer_stop @w", "k_timer_status_get @w r0", "k_timer_status_sync @w r0"]
SHARED = ["k_futex_wait @f {few} {wait}", "k_futex_wake @f one", "k_futex_wake @f all", "store @f 4 {few}"]
FORMS = [STOPS, STOPS, WAITING, TIMED, SHARED]
MOST_THREADS, MOST_LINES, MOST_BEHIND = 5, 10, 2
HEAD = """\
version = 1
mpu = "pmsav7"
regions = 8
oops = "abort"
partition = [{name = "p", size = 32, attr = "P_RW_U_RW"}]
domain = [{name = "d", partitions = ["p"]}]
futex = [{name = "f", partition = "p", offset = 0}]
"""
OBJECTS = [
    '{name = "s", kind = "sem", count = 0, limit = 2}', '{name = "m", kind = "mutex", init = true}', '{name = "w", kind = "timer"}',
    '{name = "q", kind = "msgq", msg_size = 4, max_msgs = 1}',
]  # fmt: skip


def restless(number: int) -> bytes:
    """The description of this number: two to five threads, of which some boot, and each with a script. Each may do anything to each."""
    draw = random.Random(number)
    threads = draw.randint(2, MOST_THREADS)
    scripts = threads + MOST_BEHIND
    grants = ", ".join([f'"t{k}", "k{k}"' for k in range(threads)] + ['"s"', '"m"', '"w"', '"q"'])

    def script(k: int) -> str:
        forms = [draw.choice(draw.choice(FORMS)) for _ in range(draw.randint(3, MOST_LINES))]
        forms = [form for form in forms if k + 1 < scripts or "{c}" not in form] or ["set r0 0"]
        values = [{"t": draw.randrange(threads), "c": draw.randint(min(k + 1, scripts - 1), scripts - 1), "wait": draw.choice(WAITS), "few": draw.randint(1, 3)} for _ in forms]
        return f'{{name = "c{k}", lines = [{", ".join(chr(34) + form.format(**value) + chr(34) for form, value in zip(forms, values))}]}}'

    def boot(k: int) -> str:
        mode, priority = draw.choice(["user", "user", "user", "supervisor"]), draw.randint(0, 2)
        return f'{{thread = "t{k}", stack = "k{k}", script = "c{k}", priority = {priority}, mode = "{mode}", domain = "d", grants = [{grants}]}}'

    sections = {
        "object": [f'{{name = "t{k}", kind = "thread"}}, {{name = "k{k}", kind = "thread_stack", size = 64}}' for k in range(threads)] + OBJECTS,
        "boot": [boot(k) for k in range(draw.randint(1, threads))],
        "script": [script(k) for k in range(scripts)],
    }
    return (HEAD + "".join(f"{key} = [{', '.join(entries)}]\n" for key, entries in sections.items())).encode()
