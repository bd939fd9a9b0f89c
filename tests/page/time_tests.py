"""Tests of what the page shows of virtual time, of threads that others stop, and of futexes."""
import re

from claim_tests import has, said, sentences, show_run
from judging import EXAMPLES, holds, same
from page_tests import PAGE, cell, choose, colour_at, colour_named, note, show_example, text_of

# A supervisor a, a user b, a timer, and two futexes that share two bytes.
SYSTEM = """\
version = 1
mpu = "pmsav7"
regions = 8
oops = "abort"
partition = [{name = "p", size = 32, attr = "P_RW_U_RW"}]
domain = [{name = "d", partitions = ["p"]}]
object = [
  {name = "a", kind = "thread"}, {name = "sa", kind = "thread_stack", size = 64},
  {name = "b", kind = "thread"}, {name = "sb", kind = "thread_stack", size = 64}, {name = "tm", kind = "timer"}]
boot = [
  {thread = "a", stack = "sa", script = "go", mode = "supervisor", priority = 0, domain = "d"},
  {thread = "b", stack = "sb", script = "work", priority = 0, domain = "d", grants = ["tm"]}]
futex = [{name = "f", partition = "p", offset = 4}, {name = "g", partition = "p", offset = 6}]
[[script]]
name = "go"
lines = ["k_thread_suspend @b", "k_thread_resume @b", "k_thread_abort @a"]
[[script]]
name = "work"
lines = ["k_timer_start @tm 3", "k_timer_status_get @tm r1", "k_timer_start @tm 0xffffffff", "k_timer_stop @tm", "k_futex_wait @g 0 K_TICKS(2)"]
"""

# For each form of an event a line that is read, and words in its place that aren't.
LINES = [
    ("main arm 5", ["main arm", "main arm -5", "main arm 5 5", "main arm 0x5"]),
    ("main tick 5", ["main tick", "main tick now", "main tick 5 ok"]),
    ("main timeout worker", ["main timeout", "main timeout alive", "main timeout worker EAGAIN"]),
    ("main expire round", ["main expire", "main expire rounds", "main expire round 1"]),
    ("main expire round wake worker 1", ["main expire round wake", "main expire round wake alive 1", "main expire round wake worker"]),
    ("main abort worker ok", ["main abort worker", "main abort worker gone", "main abort alive ok", "main abort worker ok ok"]),
    ("main suspend worker none", ["main suspend worker wait", "main suspend ok"]),
    ("main continue worker ok", ["main continue", "main continue worker EPERM"]),
    ("main killed", ["main killed worker"]),
    ("main cut worker", ["main cut", "main cut worker ok"]),
    ("main join worker wait", ["main join worker", "main join worker kept", "main join wait"]),
    ("main join worker EDEADLK", ["main join worker EDEAD"]),
    ("main left worker", ["main left", "main left alive", "main left worker 0"]),
    ("main left worker wake main 0", ["main left worker wake main", "main left worker wakes main 0"]),
    ("main futex wait 0x20000000 0x1 wait", ["main futex wait 0x20000000 0x1", "main futex wait 0x20000000 1 wait", "main futex wait 0x20000000 0x1 ok"]),
    ("main futex wait 0x20000000 0x1 ETIMEDOUT", ["main futex wait alive 0x1 ETIMEDOUT", "main futex wait 0x20000000 0x1 5", "main futex wait 0x20000000 0x1 wait wake worker 0"]),
    ("main futex wake 0x20000000 1 wake worker 0", ["main futex wake 0x20000000", "main futex wakes 0x20000000 1", "main futex wake 0x20000000 1 wake"]),
    ("main futex wake 0x20000000 EACCES", ["main futex", "main futex wake 0x20000000 wait"]),
    ("main check round timer init ok", ["main check round timers init ok"]),
]  # fmt: skip


def words_of_new_lines(browser) -> None:
    """Each form of a line is read to its end, and what isn't one is refused with its number."""
    browser.open(PAGE)
    description = (EXAMPLES / "watchdog.toml").read_text()
    read = """window.seen = null;
        Run.load(arguments[0], arguments[1], () => {}).then((run) => { seen = [run.count, run.trace.broken?.line ?? 0]; });"""
    for right, wrong in LINES:
        for line, wanted in [(right, [2, 0]), *((one, [1, 2]) for one in wrong)]:
            browser.run(read, description, f"main begin watch 1\n{line}\n")
            browser.wait_for("seen", line)
            same(f"events of {line!r}, and the line that can't be read", browser.run("return seen"), wanted)


def ticks_on_the_timeline(browser) -> None:
    show_example(browser, "missed-deadline")
    choose(browser, 0)
    ticks = browser.run("return page.timeline.drawn.ticks")
    same("ticks", [(tick["event"], tick["label"]) for tick in ticks], [(0, "tick 0"), (13, "tick 5"), (23, "tick 8"), (44, "tick 10")])
    dashes = [colour_at(browser, ticks[1]["x"], 27 + y) for y in range(8)]
    holds(f"no line at tick 5: {dashes}", colour_named(browser, "mark-time") in dashes)
    browser.run("page.timeline.hidden.add(GROUP_NUMBER.get('time')); page.timeline.drawNow()")
    same("ticks where time is hidden", browser.run("return page.timeline.drawn.ticks"), [])
    show_example(browser, "last-release")
    same("where lanes begin in a run without ticks", browser.run("return page.timeline.lanesTop"), 26)
    holds("a run without deadlines has a line on time", browser.run("return document.querySelector('#clock').hidden"))
    shown = browser.run("return [...document.querySelectorAll('#legend li')].filter((entry) => !entry.hidden).map((entry) => entry.innerText)")
    holds(f"its legend: {shown}", not any(re.match("time|stopped", entry) for entry in shown))


def waits_with_their_deadlines(browser) -> None:
    show_example(browser, "poll-with-a-timeout")
    choose(browser, 5)
    drawn = browser.run("return page.timeline.drawn")
    waits = [(wait["start"], wait["end"], wait["deadline"], wait["timeout"]) for wait in drawn["waits"]]
    same("waits", waits, [(5, 19, 10, 0), (32, 36, 14, 35), (9, 12, 4, 11)])
    same("words in the lanes", sorted(drawn["words"]), ["until tick 10", "until tick 14", "until tick 4"])
    same("the heading of logger", note_of_thread(browser, "logger"), "user in app, waits for queue until tick 10")
    same("the clock", text_of(browser, "#clock"), "Virtual time is tick 0. Deadlines ahead: 10 (logger).")
    has("an arm", sentences(browser, 4), "logger arms a deadline for its call: tick 10, 10 ticks from now.")
    has("a wait", sentences(browser, 5), "logger begins to wait on queue, until tick 10 at the most.")
    has("a tick", sentences(browser, 10), "Virtual time goes on from tick 0 to 4")
    same("the clock at the deadline", text_of(browser, "#clock"), "Virtual time is tick 4. Deadlines that have come: 4 (sensor). Deadlines ahead: 10 (logger).")
    has("a timeout", sentences(browser, 11), "The deadline, tick 4, of sensor has come.", "It waits for never no longer, and its call answers EAGAIN.")
    has("a resume behind a timeout", sentences(browser, 12), "since its deadline has come")
    has("a resume behind a wake", sentences(browser, 19), "was woken")
    hover = """const box = page.timeline.canvas.getBoundingClientRect();
        const [x, y] = [page.timeline.x(arguments[0]), page.timeline.laneY(arguments[1])];
        page.timeline.canvas.dispatchEvent(new PointerEvent("pointermove", { clientX: box.left + x, clientY: box.top + y }));
        return page.timeline.canvas.title"""
    same("text at a bar", browser.run(hover, 7, 0), "logger waits until tick 10 at the most.")
    same("text beside it", browser.run(hover, 22, 0), "")
    show_example(browser, "missed-deadline")
    arrows = browser.run("return page.timeline.drawn.arrows.map(({ event, group }) => [event, group])")
    same("arrows", arrows, [[14, "timeout"], [24, "wait"], [29, "wait"]])


def note_of_thread(browser, name: str) -> str:
    return browser.run('return document.querySelector(`thead th[data-thread="${arguments[0]}"] small`).textContent', name)


def timer_from_start_to_expiry(browser) -> None:
    show_example(browser, "timer-wakes-a-worker")
    wanted = {3: "status 0, stopped", 4: "status 0, runs until tick 5", 9: "status 0, runs until tick 5", 10: "status 0, stopped"}
    for k, state in wanted.items():
        choose(browser, k)
        same(f"the timer after event {k}", note(browser, "period"), f"timer · initialised, {state}")
    has("an arm", sentences(browser, 3), "worker arms a deadline for the timer period: tick 5")
    has("an expiry", sentences(browser, 10), "The timer period runs out at tick 5, and stops.", "It wakes worker, which is answered 1.")
    choose(browser, 10)
    same("the register that gets the status", browser.run("return page.run.stateAfter(10).registers[0]"), 1)


def stopped_threads(browser) -> None:
    show_example(browser, "watchdog")
    choose(browser, 0)
    drawn = browser.run("return page.timeline.drawn")
    stops = [(stop["thread"], stop["start"], stop["end"], stop["word"]) for stop in drawn["stops"]]
    same("stops", stops, [(1, 60, 63, "aborted"), (1, 63, 82, "killed")])
    holds(f"no word says that it is killed: {drawn['words']}", "killed" in drawn["words"])
    same("waits that are cut", [wait["end"] for wait in drawn["waits"] if wait["isCut"]], [61])
    same("arrows of stops", [arrow["event"] for arrow in drawn["arrows"] if arrow["group"] == "stopped"], [60, 61])
    x, y = browser.run("return [page.timeline.x(61), page.timeline.laneY(1)]")
    seen, wanted = colour_at(browser, x, y), colour_named(browser, "mark-stopped")
    holds(f"no stroke across the wait that is cut: {seen}", all(abs(one - other) < 16 for one, other in zip(seen, wanted)))
    same("its lives", [(life["start"], life["end"]) for life in browser.run("return page.run.lives[1]")], [(0, 63), (82, 92)])
    column = browser.run("return [page.timeline.x(75), page.timeline.laneY(1)]")
    seen = [colour_at(browser, column[0] + x, column[1] - 14) for x in range(12)]
    holds(f"the lane of the killed one isn't hatched: {seen}", colour_named(browser, "stopped") in seen and len({tuple(one) for one in seen}) > 1)
    for k, wanted in {60: "waits for input, aborted", 61: "ready, aborted", 63: "ended, killed", 82: "ready"}.items():
        choose(browser, k)
        same(f"the heading of worker after event {k}", note_of_thread(browser, "worker"), f"user in app, {wanted}")
    choose(browser, 62)
    same("what its call holds", cell(browser, "worker", "input"), "●◆")
    choose(browser, 63)
    same("what it holds behind its end", cell(browser, "worker", "input"), "●!")
    has("its stack", said(browser, "worker", "worker_s"), "nothing, it has ended", "Last changed by event 63: worker killed")
    has("an abort", sentences(browser, 60), "main aborts worker", "It waits for input, and will be cut.")
    has("a cut", sentences(browser, 61), "its call doesn't answer", "event 60: main abort worker ok")
    has("the end", sentences(browser, 63), "worker is killed", "event 60: main abort worker ok")
    has("a join of what has ended", sentences(browser, 71), "the join answers 0")


def timer_that_nobody_waits_for(browser) -> None:
    show_run(
        browser,
        [
            "b begin work 1", "b arm 3", "b act tm void", "b tick 3", "a expire tm", "b begin work 2", "b act tm 1", "b reply 1",
            "b begin work 3", "b arm 4294967298", "b act tm void", "b begin work 4", "b act tm void", "b tick 4294967298",
        ],
        SYSTEM,
    )  # fmt: skip
    wanted = {
        3: "status 0, runs until tick 3", 5: "status 1, stopped", 7: "status 0, stopped", 11: "status 0, runs until tick 4294967298",
        13: "status 0, stopped",
    }  # fmt: skip
    for k, state in wanted.items():
        choose(browser, k)
        same(f"the timer after event {k}", note(browser, "tm"), f"timer · initialised, {state}")
    same("the register that gets the status", browser.run("return page.run.stateAfter(7).registers[8 + 1]"), 1)
    has("an expiry", sentences(browser, 5), "Nobody waits for it, so its status is 1 until somebody asks.")
    choose(browser, 13)
    same("a deadline that is nobody's any more", text_of(browser, "#clock"), "Virtual time is tick 3. Deadlines ahead: 4294967298.")
    choose(browser, 14)
    same("time of more than 32 bits", text_of(browser, "#clock"), "Virtual time is tick 4294967298. No deadline is ahead.")
    show_run(browser, ["b begin work 1", "b arm 0", "b act tm void"], SYSTEM)
    choose(browser, 3)
    same("a deadline of now", text_of(browser, "#clock"), "Virtual time is tick 0. Deadlines that have come: 0 (tm). No deadline is ahead.")


def suspended_and_killed_by_itself(browser) -> None:
    show_run(
        browser,
        [
            "a begin go 1", "a check b thread init ok", "a suspend b ok", "a reply void", "a begin go 2", "a continue b ok", "a reply void",
            "a begin go 3", "a check a thread init ok", "a abort a ok", "a killed", "a suspend b none", "a drop a a kept",
        ],
        SYSTEM,
    )  # fmt: skip
    choose(browser, 3)
    same("the heading of b", note_of_thread(browser, "b"), "user in d, ready, suspended")
    has("a suspend", sentences(browser, 3), "b is suspended: it begins no line until it is resumed.")
    has("a resume", sentences(browser, 6), "b isn't suspended any more")
    same("the heading of b behind it", note_of_thread(browser, "b"), "user in d, ready")
    has("an abort", sentences(browser, 10), "a aborts itself: it is killed in place of a reply.")
    has("its end", sentences(browser, 11), "a is killed", "event 10: a abort a ok")
    same("a holds its own object alone", (cell(browser, "a", "b"), cell(browser, "a", "a")), ("!", "●◆"))
    has("a suspend of what doesn't live", sentences(browser, 12), "b doesn't live")
    browser.run("page.timeline.drawNow()")
    drawn = browser.run("return page.timeline.drawn")
    stops = [(stop["thread"], stop["start"], stop["end"], stop["word"]) for stop in drawn["stops"]]
    same("stops", stops, [(0, 10, 11, "aborted"), (0, 11, -1, "killed"), (1, 3, 6, "suspended")])
    same("arrows", [(arrow["event"], arrow["to"]) for arrow in drawn["arrows"]], [(3, 1), (6, 1)])
    browser.run("page.timeline.hidden.add(GROUP_NUMBER.get('stopped')); page.timeline.drawNow()")
    same("arrows and stops that are hidden", browser.run("const { arrows, stops } = page.timeline.drawn; return [arrows, stops]"), [[], []])


def futexes_that_overlap(browser) -> None:
    wait, wake = "b futex wait 0x20000006 0x0 wait", "a futex wake 0x20000004 0"
    show_run(browser, ["b begin work 5", "b arm 2", wait, "a tick 2", "b timeout b", "b resume", "b reply ETIMEDOUT", wake], SYSTEM)
    choose(browser, 3)
    notes = ("futex · 0x20000004 to 0x20000007", "futex · 0x20000006 to 0x20000009, waited on by b")
    same("both futexes", (note(browser, "f"), note(browser, "g")), notes)
    has("a wait", sentences(browser, 3), "The futex g (p+6, 0x20000006) has the value 0x0, so b begins to wait there, until tick 2 at the most.")
    has("a timeout", sentences(browser, 5), "It waits for the futex g no longer, and its call answers ETIMEDOUT.")
    same("g behind it", note(browser, "g"), "futex · 0x20000006 to 0x20000009")
    for name in ("f", "g"):
        browser.run("page.tellStory('memory', page.run.rights.regions.findIndex(({ name }) => name === arguments[0]))", name)
        told = browser.run("return [...document.querySelectorAll('#story code')].map((line) => line.textContent)")
        same(f"the story of {name}", told, [wait, wake])


def joins(browser) -> None:
    show_example(browser, "worker-joined-in-time")
    choose(browser, 4)
    same("who joins", note_of_thread(browser, "main"), "user in app, waits for the end of worker until tick 3")
    same("who is joined", note(browser, "worker"), "thread · initialised, joined by main")
    has("a join", sentences(browser, 4), "main begins to wait for the end of worker, until tick 3 at the most.")
    left = browser.run("return [...Array(page.run.count).keys()].find((k) => page.run.trace.kindWord(k) === 'left')")
    has("the end", sentences(browser, left), "It wakes main, which is answered 0.")
    same("who is joined behind it", note(browser, "worker"), "thread · initialised")
    show_example(browser, "two-that-join-each-other")
    has("a refused join", sentences(browser, 6), "left itself waits for the end of right: the answer is EDEADLK.")


def futexes_among_the_memory(browser) -> None:
    show_example(browser, "lock-in-shared-memory")
    choose(browser, 4)
    same("the futex", note(browser, "lock"), "futex · 0x20000004 to 0x20000007, waited on by other")
    same("who may wait there", (cell(browser, "owner", "lock"), cell(browser, "other", "lock")), ("rw-", "rw-"))
    same("who waits there", note_of_thread(browser, "other"), "user in app, waits for the futex lock")
    has("a wait", sentences(browser, 4), "The futex lock (locked+0, 0x20000004) has the value 0x1, so other begins to wait there.")
    has("a wake", sentences(browser, 13), "one thread", "It wakes other, which is answered 0.")
    same("the futex behind it", note(browser, "lock"), "futex · 0x20000004 to 0x20000007")
    same("its arrow", browser.run("return page.timeline.drawn.arrows.map(({ event }) => event)"), [13])
    found = """page.search.memory.value = page.search.ranges.findIndex(({ name }) => name === arguments[0]);
        page.search.search(); return page.search.found"""
    same("events at the futex", browser.run(found, "lock"), [2, 4, 11, 13, 22, 29, 31])
    same("events at the variable there", browser.run(found, "locked"), [2, 4, 11, 13, 22, 29, 31])
    same("events at the other variable", browser.run(found, "counter"), [6, 9, 24, 27])
    browser.press("w")
    same("over the whole run", cell(browser, "other", "lock"), "rw- ✓rw")
    show_example(browser, "wake-without-the-right")
    choose(browser, 4)
    same("who may wait there", [cell(browser, name, "bell") for name in ("sleeper", "stranger", "waker")], ["r--", "", "r--"])
    has("a refusal", sentences(browser, 4), "stranger may not wait on the futex bell (shared+0, 0x20000000): EACCES.", "shared isn't in the domain of stranger")
    browser.press("Home", "f")
    same("the first failure", browser.run("return page.k"), 4)


TESTS = [
    words_of_new_lines,
    ticks_on_the_timeline,
    waits_with_their_deadlines,
    timer_from_start_to_expiry,
    timer_that_nobody_waits_for,
    stopped_threads,
    suspended_and_killed_by_itself,
    joins,
    futexes_among_the_memory,
    futexes_that_overlap,
]
