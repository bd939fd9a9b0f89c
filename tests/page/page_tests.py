"""Tests of the page in a headless browser, on examples, on what isn't an output, and on very many events."""
import subprocess
import tempfile
import time
import xml.etree.ElementTree
from pathlib import Path

from judging import BUILD, EXAMPLES, VIEWER, NotRun, holds, runs, same, together
from synthetic import many_events

PAGE = VIEWER / "index.html"
SMOOTH_MILLISECONDS = 250
TRIES = 5


def show(browser, *files: Path) -> None:
    """Opens files in a fresh page, and waits for the run."""
    browser.open(PAGE)
    browser.choose_files(*files)
    browser.wait_for("page.run || !document.querySelector('#message').hidden", "the run")
    same("the message", browser.run("return document.querySelector('#message').textContent"), "")


def show_example(browser, name: str) -> None:
    show(browser, EXAMPLES / f"{name}.toml", EXAMPLES / f"{name}.out")


def told(browser, *files: Path) -> str:
    """The message of a fresh page about files."""
    browser.open(PAGE)
    browser.choose_files(*files)
    browser.wait_for("!document.querySelector('#message').hidden", "a message")
    return browser.run("return document.querySelector('#message').innerText")


def choose(browser, k: int) -> None:
    browser.run("page.choose(arguments[0]); page.timeline.drawNow()", k)


def cell(browser, thread: str, row: str) -> str:
    """What stands in a cell of the matrix, with a ! behind it where it stands out as changed."""
    return browser.run(
        """const cell = document.querySelector(`td[data-thread="${arguments[0]}"][data-row="${arguments[1]}"]`);
        return cell.textContent + (cell.classList.contains("changed") ? "!" : "")""",
        thread,
        row,
    )


def note(browser, row: str) -> str:
    return browser.run('return document.querySelector(`th[data-name="${arguments[0]}"] small`).textContent', row)


def text_of(browser, selector: str) -> str:
    return browser.run("return document.querySelector(arguments[0]).innerText", selector)


def chosen(browser) -> int:
    return browser.run("return page.k")


def colour_at(browser, x: float, y: float) -> list:
    return browser.run(
        """const ratio = devicePixelRatio || 1;
        return [...page.timeline.context.getImageData(arguments[0] * ratio, arguments[1] * ratio, 1, 1).data].slice(0, 3)""",
        x,
        y,
    )


def colour_named(browser, name: str) -> list:
    """A colour of the style sheet as three numbers."""
    digits = browser.run("return pageColours().colour(arguments[0])", name).lstrip("#")
    return [int(digits[at : at + 2], 16) for at in (0, 2, 4)]


def matrix_of_the_last_release(browser) -> None:
    show_example(browser, "last-release")
    wanted = {
        3: ("●!", "", "msgq · uninitialised"),
        9: ("●◆", "●!", "msgq · uninitialised"),
        14: ("◆!", "●", "msgq · uninitialised"),
        18: ("", "◆!", "msgq · gone"),
        20: ("", "", "msgq · free"),
    }
    for k, (first, second, state) in wanted.items():
        choose(browser, k)
        same(
            f"cells of #16 after event {k}",
            (cell(browser, "a", "#16"), cell(browser, "b", "#16"), note(browser, "#16")),
            (first, second, state),
        )
    same("the title", text_of(browser, "#matrix-title"), "Who may touch what, after event 20")
    same("a on its own stack, b on a's", (cell(browser, "a", "sa"), cell(browser, "b", "sa")), ("rw-", ""))


def jumps_to_what_gave_and_took(browser) -> None:
    show_example(browser, "last-release")
    choose(browser, 15)
    browser.run('document.querySelector(\'td[data-thread="b"][data-row="#16"]\').click()')
    same(
        "links",
        browser.run("return [...document.querySelectorAll('#cell button')].map((link) => link.innerText)"),
        ["event 9: a grant b #16 ok", "event 18: b drop b #16 gone"],
    )
    browser.run("document.querySelectorAll('#cell button')[1].click()")
    same("the event behind the link", chosen(browser), 18)
    show_example(browser, "copy-after-a-cut")
    choose(browser, 3)
    browser.run('document.querySelector(\'td[data-thread="b"][data-row="p"]\').click()')
    same(
        "link of a region",
        browser.run("return document.querySelector('#cell button').innerText"),
        "event 6: a domain remove d 0x20000000/32/P_RW_U_RW 0",
    )


def fatal_error_stands_out(browser) -> None:
    show_example(browser, "last-byte")
    browser.press("f")
    same("the first failure", (chosen(browser), text_of(browser, "#event-text code")), (4, "a fault read 0x20000020 1"))
    browser.press("f")
    same("the second failure", (chosen(browser), text_of(browser, "#event-text code")), (5, "a fatal 0 access"))
    holds("the story of the fatal error isn't told", "reason 0, CPU exception" in text_of(browser, "#event-text"))
    holds(
        "the panel of the event doesn't stand out",
        browser.run("return document.querySelector('#event-panel').classList.contains('failing')"),
    )
    choose(browser, 0)
    drawn = browser.run("return page.timeline.drawn.fatals")
    same("fatal errors that are drawn", [mark["event"] for mark in drawn], [5])
    same(
        "the colour of the mark",
        colour_at(browser, drawn[0]["x"] - 5, drawn[0]["y"]),
        colour_named(browser, "mark-fatal"),
    )


def wait_and_wake(browser) -> None:
    show_example(browser, "sensor-and-logger")
    choose(browser, 0)
    drawn = browser.run("return page.timeline.drawn")
    names = browser.run("return page.timeline.threads.map((thread) => page.run.description.nameOfThread(thread))")
    arrows = [(arrow["event"], names[arrow["from"]], names[arrow["to"]]) for arrow in drawn["arrows"]]
    same("arrows", arrows, [(54, "sensor", "logger")])
    waits = [(names[wait["thread"]], wait["start"], wait["end"]) for wait in drawn["waits"]]
    same("bars of waits", waits, [("logger", 30, 60)])
    arrow = drawn["arrows"][0]
    same(
        "the colour of the arrow's head",
        colour_at(browser, arrow["x"] + 1.5, arrow["end"] - 6),
        colour_named(browser, "mark-wake"),
    )


def changed_dump_is_told(browser) -> None:
    show_example(browser, "last-release")
    holds("a warning about an output that is right", browser.run("return document.querySelector('#warning').hidden"))
    output = (EXAMPLES / "last-release.out").read_text()
    changes = [
        ("object b thread uninit private -", "object b thread uninit private a"),
        ("pool h 64/64", "pool h 0/64"),
        ("thread a ended", "thread a ready"),
        ("domain d -\n", "domain d -\nmemory 0x20080000 01" + "0" * 62 + "\n"),
    ]
    for old, new in changes:
        changed = output.replace(old, new)
        place = next(
            number for number, pair in enumerate(zip(output.split("\n"), changed.split("\n")), 1) if pair[0] != pair[1]
        )
        with tempfile.TemporaryDirectory() as folder:
            file = Path(folder) / "changed.out"
            file.write_text(changed)
            show(browser, EXAMPLES / "last-release.toml", file)
        holds("the warning is hidden", browser.run("return !document.querySelector('#warning').hidden"))
        warning = text_of(browser, "#warning")
        holds(
            f"no warning about {new!r} in line {place}: {warning!r}",
            f"Line {place}:" in warning and new.split("\n")[-2 if "\n" in new else 0] in warning,
        )


def unreadable_lines_are_named(browser) -> None:
    description, output = ((EXAMPLES / f"last-byte.{ending}").read_text() for ending in ("toml", "out"))
    lines = output.split("\n")
    broken = "\n".join(lines[:2] + ["a begun m 2"] + lines[3:])
    cases = [
        ("a.out", broken, "Can't read line 3 of a.out"),
        ("b.out", "events 8\nbegins 2\n", "Can't read line 1 of b.out"),
        ("c.out", "\0\1\2" * 1000, "Can't read line 1 of c.out"),
        ("d.out", "", "Can't read line 1 of d.out"),
        ("e.out", output.replace("object sa", "subject sa"), "Can't read line 12 of e.out"),
        ("f.run", f"{description}=====\n{broken}", f"Can't read line {description.count(chr(10)) + 4} of f.run"),
        ("g.toml", description.replace("regions = 8", "regions ="), "Can't read line 6 of g.toml"),
    ]
    with tempfile.TemporaryDirectory() as folder:
        for name, text, wanted in cases:
            file = Path(folder) / name
            file.write_text(text)
            files = {"run": [file], "toml": [file, EXAMPLES / "last-byte.out"]}.get(
                name[2:], [EXAMPLES / "last-byte.toml", file]
            )
            message = told(browser, *files)
            holds(f"the message about {name}: {message!r}, wanted {wanted!r}", message.startswith(wanted))
    holds(
        "the output of another description",
        "no thread" in told(browser, EXAMPLES / "last-byte.toml", EXAMPLES / "last-release.out"),
    )


def one_file_and_one_after_another(browser) -> None:
    with tempfile.TemporaryDirectory() as folder:
        file = Path(folder) / "both.run"
        file.write_text(together("last-release"))
        show(browser, file)
        same("events of one file", browser.run("return page.run.count"), 29)
    message = told(browser, EXAMPLES / "last-byte.toml")
    holds(f"what is wanted next: {message!r}", "Now its output" in message)
    browser.choose_files(EXAMPLES / "last-byte.out")
    browser.wait_for("page.run", "the run")
    same("events of two files", browser.run("return page.run.count"), 8)
    with tempfile.TemporaryDirectory() as folder:
        file = Path(folder) / "another.out"
        file.write_text("\n".join((EXAMPLES / "last-byte.out").read_text().split("\n")[:5]) + "\n")
        browser.choose_files(file)
        browser.wait_for("page.run.count === 5", "another output of the same description")
    holds("a missing dump isn't told", "no dump" in text_of(browser, "#warning"))
    with tempfile.TemporaryDirectory() as folder:
        file = Path(folder) / "broken.out"
        file.write_text("a begin m\n")
        browser.choose_files(file)
        browser.wait_for("!document.querySelector('#message').hidden", "a message")
    same("the run behind what can't be read", browser.run("return page.run.count"), 5)
    browser.choose_files(EXAMPLES / "last-byte.out")
    browser.wait_for("page.run && page.run.count === 8", "an output of the description that was kept")
    browser.run("page.openExample('copy-after-a-cut')")
    browser.wait_for("page.run.count === 23", "the page's own example")


def keys_alone(browser) -> None:
    show_example(browser, "last-release")
    browser.press("Right", "Right", "Right", "Left")
    same("after three steps forward and one back", chosen(browser), 2)
    browser.press("End")
    same("the last event", chosen(browser), 29)
    browser.press("Home", "Right", "Shift+Right", "Shift+Right", "Shift+Right", "Shift+Right")
    same("the fifth event of a", chosen(browser), 6)
    before = browser.run("return page.timeline.scale")
    browser.press("-")
    browser.press("+", "+")
    holds("+ doesn't zoom in", browser.run("return page.timeline.scale") > before)
    browser.press("/", "g", "o", "n", "e", "Escape", "n")
    same("the event that is found", chosen(browser), 18)
    browser.press("m", "Down", "Down", "Down", "Right", "Enter")
    holds(
        "Enter in the matrix tells nothing",
        "changed by" in text_of(browser, "#cell") or "opening" in text_of(browser, "#cell"),
    )
    browser.press("?")
    holds("the help says who the judge is", "not a judge" in text_of(browser, "#help"))
    browser.press("Escape", "t", "Right")
    same("a step behind it", chosen(browser), 19)


def mouse(browser) -> None:
    show_example(browser, "last-release")
    view = "const { scale, start } = page.timeline; return [scale, start]"
    x, y = browser.run("const box = page.timeline.canvas.getBoundingClientRect(); return [box.left, box.top]")
    place = browser.run("return [page.timeline.x(18), page.timeline.laneY(page.run.trace.who[18])]")
    browser.click(x + place[0], y + place[1])
    same("the event that is clicked", chosen(browser), 18)
    scale, start = browser.run(view)
    browser.wheel(x + 700, y + 40, -600)
    zoomed, moved = browser.run(view)
    holds("the wheel doesn't zoom in", zoomed > scale and moved > start)
    browser.drag((x + 500, y + 40), (x + 600, y + 40), (x + 700, y + 40))
    panned = browser.run(view)
    holds("dragging doesn't pan", panned[0] == zoomed and panned[1] < moved)
    same("the event chosen after dragging", chosen(browser), 18)


def dropped_files(browser) -> None:
    browser.open(PAGE)
    texts = [(EXAMPLES / f"last-byte.{ending}").read_text() for ending in ("out", "toml")]
    browser.run(
        """const data = new DataTransfer();
        data.items.add(new File([arguments[0]], "last-byte.out"));
        data.items.add(new File([arguments[1]], "last-byte.toml"));
        document.body.dispatchEvent(new DragEvent("drop", { dataTransfer: data, bubbles: true, cancelable: true }))""",
        *texts,
    )
    browser.wait_for("page.run", "the run of dropped files")
    same("events of dropped files", browser.run("return page.run.count"), 8)


def story_and_search(browser) -> None:
    show_example(browser, "last-release")
    browser.run("page.tellStory('object', 96 + 16)")
    lines = browser.run("return [...document.querySelectorAll('#story code')].map((line) => line.textContent)")
    same(
        "the story of #16",
        lines,
        [
            "a reserve msgq #16",
            "a born #16",
            "a check #16 any any ok",
            "a grant b #16 ok",
            "a check #16 any any ok",
            "a drop a #16 kept",
            "b check #16 any any ok",
            "b drop b #16 gone",
            "b recycle #16",
        ],
    )
    browser.run("document.querySelectorAll('#story button')[3].click()")
    same("the event behind a line of the story", chosen(browser), 9)
    found = """page.search.kind.value = EVENT_KINDS.indexOf("check"); page.search.thread.value = arguments[0];
        page.search.search(); return page.search.found"""
    same("checks of a", browser.run(found, 0), [7, 8, 13])
    same("checks of b", browser.run(found, 1), [17])
    counts = browser.run(
        "return [...document.querySelectorAll('#counts tr')].map((row) => [...row.cells].map((cell) => cell.textContent))"
    )
    output = (EXAMPLES / "last-release.out").read_text().split("\ndump\n")[0].split("\n")
    kinds = [line.split(" ")[1] for line in output]
    same("counts", {kind: int(count) for kind, count in counts}, {kind: kinds.count(kind) for kind in kinds})


def matrix_as_svg(browser) -> None:
    show_example(browser, "last-release")
    svg = xml.etree.ElementTree.fromstring(browser.run("return matrixSvg(page.run, 9)"))
    texts = [part.text for part in svg.iter("{http://www.w3.org/2000/svg}text")]
    holds("the title of the picture", texts[0] == "After event 9: a grant b #16 ok")
    holds("the permissions in the picture", "●◆" in texts and "●" in texts)
    choose(browser, 9)
    browser.run("document.querySelector('#save').click()")
    saved = Path(browser.folder) / "matrix-9.svg"
    until = time.monotonic() + 20
    while not saved.exists() and time.monotonic() < until:
        time.sleep(0.05)
    holds("the picture isn't saved", saved.exists() and "grant b #16" in saved.read_text())


def every_example_ends_as_it_dumps(browser) -> None:
    browser.open(PAGE)
    for source in runs():
        browser.run(
            """window.seen = null;
            Run.load(arguments[0], arguments[1], () => {}).then((run) => { seen = { differences: run.differences }; },
                (fault) => { seen = { fault: `${fault.file} ${fault.line} ${fault.message}` }; })""",
            source.read_text(),
            source.with_suffix(".out").read_text(),
        )
        browser.wait_for("seen", source.name)
        same(source.name, browser.run("return seen"), {"differences": []})


def very_many_events(browser) -> None:
    with tempfile.TemporaryDirectory() as folder:
        description, output = Path(folder) / "many.toml", Path(folder) / "many.out"
        for file, text in zip((description, output), many_events(400_000)):
            file.write_text(text)
        started = time.monotonic()
        show(browser, description, output)
        holds(f"reading took {time.monotonic() - started:.1f} seconds", time.monotonic() - started < 30)
    same("events", browser.run("return page.run.count"), 400_000)
    for step in [
        "page.timeline.drawNow()",
        "page.choose(200000)",
        "page.choose(page.k - 1)",
        "page.timeline.zoom(40); page.timeline.drawNow()",
        "page.timeline.pan(300); page.timeline.drawNow()",
        "page.timeline.zoom(400); page.timeline.drawNow()",
    ]:
        timed = f"const from = performance.now(); {step}; return performance.now() - from"
        spent = min(browser.run(timed) for _ in range(TRIES))
        holds(f"{step} took {spent:.0f} milliseconds", spent < SMOOTH_MILLISECONDS)
    holds("more is drawn than is seen", browser.run("return page.timeline.drawn.marks") < 2000)


def light_and_dark(browser) -> None:
    seen = set()
    for scheme in ("light", "dark"):
        browser.prefer(scheme)
        show_example(browser, "copy-after-a-cut")
        choose(browser, 15)
        seen.add(browser.run("return getComputedStyle(document.body).backgroundColor"))
        browser.screenshot(BUILD / f"page-{scheme}.png")
    browser.prefer("light")
    same("backgrounds", len(seen), 2)


def generated_run(browser, program) -> None:
    """The generated description of 2 on four processors: the replay ends as the dump says, and counts as `summary` does."""
    if program is None:
        raise NotRun("the program isn't built here")
    made = subprocess.run([program, "gen", "2"], capture_output=True, check=True).stdout
    output, summary = (
        subprocess.run([program, word, "--cpus", "4"], input=made, capture_output=True, check=True).stdout
        for word in ("sim", "summary")
    )
    with tempfile.TemporaryDirectory() as folder:
        file = Path(folder) / "generated.run"
        file.write_bytes(made + b"=====\n" + output)
        show(browser, file)
    same("differences", browser.run("return page.run.differences"), [])
    counts = dict(line.split() for line in summary.decode().splitlines())
    kinds = browser.run(
        "return Object.fromEntries(EVENT_KINDS.map((kind, number) => [kind, page.run.kindCounts[number]]))"
    )
    same(
        "events, begins, checks",
        [browser.run("return page.run.count"), kinds["begin"], kinds["check"]],
        [int(counts[word]) for word in ("events", "begins", "checks")],
    )
    choose(browser, browser.run("return Math.round(page.run.count / 2)"))
    browser.screenshot(BUILD / "page-generated.png")


def page_needs_no_network(browser) -> None:
    for file in VIEWER.iterdir():
        text = file.read_text().replace("http://www.w3.org/2000/svg", "")
        holds(
            f"{file.name} names an address of the network",
            "http:" not in text and "https:" not in text and "@import" not in text,
        )
    show_example(browser, "last-byte")
    loaded = browser.run("return performance.getEntriesByType('resource').map((entry) => entry.name)")
    same("what is loaded from elsewhere", [name for name in loaded if not name.startswith("file:")], [])


TESTS = [
    matrix_of_the_last_release,
    jumps_to_what_gave_and_took,
    fatal_error_stands_out,
    wait_and_wake,
    changed_dump_is_told,
    unreadable_lines_are_named,
    one_file_and_one_after_another,
    keys_alone,
    mouse,
    dropped_files,
    story_and_search,
    matrix_as_svg,
    every_example_ends_as_it_dumps,
    very_many_events,
    light_and_dark,
    page_needs_no_network,
]
