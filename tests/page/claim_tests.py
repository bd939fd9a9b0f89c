"""Tests of what the page claims: who may touch what, in both modes, and why something failed."""
import re
import tempfile
from pathlib import Path

from judging import EXAMPLES, holds, runs, same
from page_tests import PAGE, cell, choose, chosen, note, show, show_example, text_of

# A supervisor a, a user b who reads a constant and is woken, and a user e, on one domain.
SYSTEM = """\
version = 2
mpu = "pmsav7"
regions = 8
oops = "abort"
domain = [{name = "d", partitions = ["calib", "data"]}, {name = "lone", partitions = []}]
object = [
  {name = "a", kind = "thread"}, {name = "sa", kind = "thread_stack", size = 64},
  {name = "b", kind = "thread"}, {name = "sb", kind = "thread_stack", size = 64},
  {name = "s", kind = "sem", count = 0, limit = 1}, {name = "m", kind = "mutex", init = true}]
boot = [
  {thread = "a", stack = "sa", script = "go", mode = "supervisor", priority = 0, domain = "lone"},
  {thread = "b", stack = "sb", script = "read", priority = 0, domain = "d", grants = ["s"]}]
partition = [
  {name = "calib", attr = "P_RW_U_RO", vars = [{name = "gain", size = 4}, {name = "offset", size = 4}]},
  {name = "data", attr = "P_RW_U_RW", vars = [{name = "count", size = 4}]}]
[[script]]
name = "go"
lines = ["k_sem_give @s", "k_object_access_revoke @s @b", "k_thread_user_mode_enter end"]
[[script]]
name = "read"
lines = ["load r0 @gain 4", "k_sem_give @s", "store @offset 4 r0"]
[[script]]
name = "end"
lines = ["set r0 1"]
"""


def show_run(browser, lines: list, description: str = SYSTEM) -> None:
    """Shows a run without a dump."""
    with tempfile.TemporaryDirectory() as folder:
        file = Path(folder) / "made.run"
        file.write_text(f"{description}=====\n" + "".join(f"{line}\n" for line in lines))
        show(browser, file)


def sentences(browser, k: int) -> str:
    choose(browser, k)
    return text_of(browser, "#event-text")


def said(browser, thread: str, row: str) -> str:
    """What the page says of a cell."""
    browser.run("document.querySelector(`td[data-thread=\"${arguments[0]}\"][data-row=\"${arguments[1]}\"]`).click()", thread, row)
    return text_of(browser, "#cell")


def has(what: str, text: str, *wanted: str) -> None:
    for part in wanted:
        holds(f"{what}: {text!r}, wanted {part!r}", part in text)


def supervisor_needs_no_permission(browser) -> None:
    show_run(browser, ["a begin go 1", "a check s sem init ok", "a act s void", "a reply void", "a begin go 3", "a erase sa", "a user", "a exit"])
    choose(browser, 4)
    same("cells of s", (cell(browser, "a", "s"), cell(browser, "b", "s")), ("□!", "●"))
    same("cells of m", (cell(browser, "a", "m"), cell(browser, "b", "m")), ("□", ""))
    title = browser.run('return document.querySelector(`td[data-thread="a"][data-row="m"]`).title')
    same("label of a on m", title, "a on m: a supervisor needs no permission")
    has("a on m", said(browser, "a", "m"), "a supervisor needs no permission", "from the opening", "Next changed by event 7: a user")
    same("both stacks are open to a supervisor", (cell(browser, "a", "sb"), cell(browser, "b", "sa")), ("rw-", ""))
    same("a partition of another domain isn't", cell(browser, "a", "data"), "")
    choose(browser, 7)
    same("cells of a in user mode", (cell(browser, "a", "m"), cell(browser, "a", "sb"), cell(browser, "a", "a")), ("!", "!", "●◆"))
    has("a on m in user mode", said(browser, "a", "m"), "no permission", "Last changed by event 7: a user", "It stays so to the end")
    svg = browser.run("return matrixSvg(page.run, 4)")
    has("the saved picture", svg, "□", "a supervisor needs none")
    show_example(browser, "copy-after-a-cut")
    same("a on q in the example of the README", cell(browser, "a", "q"), "□")


def part_of_a_region(browser) -> None:
    system = SYSTEM.replace('partitions = ["calib", "data"]', "partitions = []").replace("size = 4}]}]", "size = 64}]}]")
    lines = ["a begin go 1", "a domain add d 0x20000000/32/P_RW_U_RW 0"]
    show_run(browser, lines, system)
    choose(browser, 2)
    same("b on a partition of which it reaches a half", cell(browser, "b", "data"), "(rw-)!")
    has("its label", said(browser, "b", "data"), "in part: read, write from 0x20000000 to 0x2000001f", "event 2")


def fault_in_plain_words(browser) -> None:
    show_run(browser, ["b begin read 1", "b load 0x20000000 4 0x0", "b begin read 3", "b fault write 0x20000004 4", "b fatal 0 access"])
    has("a load", sentences(browser, 2), "b loads 4 bytes at gain+0, 0x20000000: 0x0")
    plain = "calib is read-only for b; it wrote offset+0, 4 bytes, to offset+3."
    has("a fault", sentences(browser, 4), plain, "It may reach")
    has("its fatal error", sentences(browser, 5), "event 4: b fault write 0x20000004 4", plain)
    show_example(browser, "last-byte")
    has("a byte behind all regions", sentences(browser, 4), "No region of memory is at 0x20000020; it read 0x20000020.")


def cause_with_another_event_between(browser) -> None:
    show_run(
        browser,
        [
            "a begin go 2", "a check b thread any ok", "a check s sem any ok", "a drop b s kept", "a reply void", "b begin read 2",
            "b check s sem init EPERM", "a begin go 3", "b fatal 3 EPERM", "b drop b b kept", "a erase sa",
        ],
    )
    wanted = "It comes from event 7: b check s sem init EPERM"
    lost = "It might name it until event 4: a drop b s kept"
    has("a cause behind another thread's event", sentences(browser, 9), wanted, lost)
    has("the script line of a fatal error", sentences(browser, 9), "line 2 of the script read")
    holds("an event of a thread's end is put down to a line", "script" not in sentences(browser, 10))
    has("an event of another thread", sentences(browser, 11), "line 3 of the script go")
    browser.press("Home", "f")
    same("the first failure is the refusal", chosen(browser), 7)
    browser.press("f")
    same("then comes the fatal error", chosen(browser), 9)


def copy_and_object_that_went(browser) -> None:
    show_example(browser, "copy-after-a-cut")
    wanted = ("p isn't in the domain of b, d; the kernel had to write p+0, 4 bytes, to p+3.", "last changed by event 6: a domain remove")
    has("a copy that is refused", sentences(browser, 14), *wanted)
    has("its fatal error", sentences(browser, 15), "It comes from event 14: b copyout", *wanted)
    description = (EXAMPLES / "last-release.toml").read_text()
    lines = (EXAMPLES / "last-release.out").read_text().split("\n")[:20]
    show_run(browser, [*lines[:18], "b reply void", "b begin c 3", "b check #16 any any EBADF", "a exit", "b fatal 3 EBADF"], description)
    wanted = "#16 went with event 18, by b: b drop b #16 gone"
    has("a check of what is gone", sentences(browser, 21), wanted)
    has("its fatal error", sentences(browser, 23), "It comes from event 21", wanted)


def memory_in_story_and_search(browser) -> None:
    show_run(browser, ["b begin read 1", "b load 0x20000000 4 0x0", "b begin read 3", "b fault write 0x20000004 4", "b fatal 0 access"])
    browser.run("page.showCell({ region: page.run.rights.regions.find(({ name }) => name === 'calib') })")
    lines = browser.run("return [...document.querySelectorAll('#story code')].map((line) => line.textContent)")
    same("the story of calib", lines, ["b load 0x20000000 4 0x0", "b fault write 0x20000004 4", "b fatal 0 access"])
    found = """page.search.memory.value = page.search.ranges.findIndex(({ name }) => name === arguments[0]);
        page.search.search(); return page.search.found"""
    same("events in gain", browser.run(found, "gain"), [2])
    same("events in offset", browser.run(found, "offset"), [4])


def whole_run_in_the_matrix(browser) -> None:
    show_run(browser, ["a begin go 3", "a erase sa", "a user", "b begin read 1", "b load 0x20000000 4 0x0", "b begin read 2", "b check s sem init ok", "b act s void"])
    browser.press("w")
    same("b on calib", cell(browser, "b", "calib"), "r-- ✓r")
    same("b on s, a on m", (cell(browser, "b", "s"), cell(browser, "a", "m")), ("● ✓1", "□"))
    has("b on calib", said(browser, "b", "calib"), "could read, first after event 0, last after event 8", "did: read, first by event 5", "First by event 5: b load")
    has("a on m", said(browser, "a", "m"), "name it as a supervisor, first after event 0, last after event 2; never did")
    has("the title", text_of(browser, "#matrix-title"), "over the whole run")
    has("the saved picture", browser.run("return matrixSvg(page.run, page.k, true)"), "Over the whole run", "r-- ✓r")
    browser.press("w")
    same("back after the event", (cell(browser, "b", "calib"), note(browser, "s")), ("r--", "sem · initialised, 0/1"))


def every_event_is_told(browser) -> None:
    """Each event of each example has its sentences, without a hole."""
    browser.open(PAGE)
    for source in runs():
        browser.run(
            """window.seen = null;
            Run.load(arguments[0], arguments[1], () => {}).then((run) => {
              seen = [];
              for (let k = 0; k <= run.count; k += 1) seen.push(explain(run, k).join(" "));
            }, (fault) => { seen = [fault.message]; })""",
            source.read_text(),
            source.with_suffix(".out").read_text(),
        )
        browser.wait_for("seen", source.name)
        told = browser.run("return seen")
        holes = [text for text in told if re.search(r"undefined|null|NaN|\[object| \.|  ", text)]
        same(f"sentences of {source.name} with a hole", holes, [])


TESTS = [
    every_event_is_told,
    supervisor_needs_no_permission,
    part_of_a_region,
    fault_in_plain_words,
    cause_with_another_event_between,
    copy_and_object_that_went,
    memory_in_story_and_search,
    whole_run_in_the_matrix,
]
