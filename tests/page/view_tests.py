"""Tests of how the page shows a run: the timeline, files that can't be read, the address, the scripts."""
import tempfile
from pathlib import Path

from judging import BUILD, EXAMPLES, holds, same
from page_tests import PAGE, choose, show, show_example, text_of, told
from synthetic import many_events


def show_many(browser, count: int) -> None:
    with tempfile.TemporaryDirectory() as folder:
        files = Path(folder) / "many.toml", Path(folder) / "many.out"
        for file, text in zip(files, many_events(count)):
            file.write_text(text)
        show(browser, *files)


def marks_tell_what_they_are(browser) -> None:
    show_example(browser, "last-release")
    hover = """const box = page.timeline.canvas.getBoundingClientRect();
        const [x, y] = [page.timeline.x(arguments[0]), page.timeline.laneY(arguments[1])];
        page.timeline.canvas.dispatchEvent(new PointerEvent("pointermove", { clientX: box.left + x, clientY: box.top + y }));
        return page.timeline.canvas.title"""
    title = browser.run(hover, 9, 0)
    same("text at a mark", title, "9: a grant b #16 ok\nb has a permission on #16 from now on.")
    same("text beside a mark", browser.run(hover, 9, 1), "")


def broken_file_is_drawn_to_its_bad_line(browser) -> None:
    lines = (EXAMPLES / "last-release.out").read_text().split("\n")
    with tempfile.TemporaryDirectory() as folder:
        file = Path(folder) / "broken.out"
        file.write_text("\n".join([*lines[:12], "a chock #16", *lines[13:]]))
        message = told(browser, EXAMPLES / "last-release.toml", file)
        browser.wait_for("page.run", "the part that can be read")
        same("what is told", message.split(":")[0], "Can't read line 13 of broken.out")
        same("events before the bad line", browser.run("return page.run.count"), 12)
        same("the last event", browser.run("return page.run.trace.line(12)"), lines[11])
        show_example(browser, "last-byte")
        file.write_text("nothing\n")
        browser.choose_files(file)
        browser.wait_for("!document.querySelector('#message').hidden", "a message")
    holds("the first run isn't shown any more", browser.run("return page.run.count === 8 && !document.querySelector('#picture').hidden"))
    holds("the first run's name is gone", "last-byte.out: 8 events" in text_of(browser, "#source"))
    browser.choose_files(EXAMPLES / "last-byte.out")
    browser.wait_for("document.querySelector('#message').hidden", "the first run again")


def text_is_in_view_with_many_threads(browser) -> None:
    show_many(browser, 500)
    choose(browser, 250)
    bottom = browser.run("return document.querySelector('#event-text .first').getBoundingClientRect().bottom - innerHeight")
    holds(f"the event's text ends {bottom} pixels below the window", bottom <= 0)
    browser.screenshot(BUILD / "page-many.png")


def overview_when_zoomed(browser) -> None:
    show_many(browser, 500)
    colour = """const { timeline } = page; timeline.drawNow(); const ratio = devicePixelRatio || 1;
        return [...timeline.context.getImageData((timeline.width - 20) * ratio, (timeline.overviewTop + 7) * ratio, 1, 1).data]"""
    same("no overview of the whole run", browser.run(colour)[3], 0)
    browser.run("page.timeline.zoom(6)")
    holds("no overview where the view is zoomed", browser.run(colour)[3] > 0)
    x, y, top = browser.run("const box = page.timeline.canvas.getBoundingClientRect(); return [box.left, box.top, page.timeline.overviewTop]")
    before = browser.run("return page.timeline.start")
    browser.click(x + 1000, y + top + 6)
    holds("a click in the overview doesn't move the view", browser.run("return page.timeline.start") > before + 50)


def whole_run_stays_whole(browser) -> None:
    show_many(browser, 500)
    seen = "const { start, scale } = page.timeline; return [start, Math.round(scale * 501 - page.timeline.span())]"
    browser.run("document.querySelector('#timeline-holder').style.width = '700px'")
    browser.wait_for("page.timeline.width < 750", "the smaller picture")
    same("the whole run in a smaller window", browser.run(seen), [0, 0])
    browser.run("page.timeline.zoom(4); document.querySelector('#timeline-holder').style.width = ''")
    browser.wait_for("page.timeline.width > 750", "the larger picture")
    holds("a zoomed view stays zoomed", browser.run("return page.timeline.scale * 501 > page.timeline.span() * 1.5"))


def labels_are_whole(browser) -> None:
    for count in (500, 1000, 5000):
        show_many(browser, count)
        inside = "const { labels } = page.timeline.drawn; return labels.length > 2 && labels.every(({ from, to }) => from >= 116 && to <= page.timeline.width)"
        holds(f"a label of {count} events is cut", browser.run(inside))


def most_of_a_long_run_is_faint(browser) -> None:
    strength = "return ['line', 'reply', 'fatal'].map((name) => page.timeline.strength(GROUP_NUMBER.get(name)))"
    show_many(browser, 500)
    same("a short run", browser.run(strength), [1, 1, 1])
    show_many(browser, 3500)
    same("a long run", browser.run(strength), [0.35, 0.35, 1])


def event_in_the_address(browser) -> None:
    show_example(browser, "last-release")
    choose(browser, 18)
    browser.wait_for("location.hash === '#event=18'", "the event in the address")
    browser.run("location.hash = '#event=4'")
    browser.wait_for("page.k === 4", "the event that the address names")
    browser.call("url", {"url": "about:blank"})
    browser.call("url", {"url": f"{PAGE.as_uri()}#example=copy-after-a-cut&event=14"})
    browser.wait_for("page.run && page.k === 14", "the example and the event that the address names")
    choose(browser, 15)
    browser.wait_for("location.hash === '#example=copy-after-a-cut&event=15'", "both in the address")


def scripts_with_the_present_lines(browser) -> None:
    show_example(browser, "last-release")
    choose(browser, 12)
    browser.run("page.openTab('scripts')")
    present = """return [...document.querySelectorAll('#scripts details')].flatMap((part) => [...part.querySelectorAll('li')]
        .map((line, at) => [part.querySelector('summary').firstChild.textContent, at + 1, line.querySelector('.at-line')?.textContent])
        .filter(([, , thread]) => thread))"""
    browser.run("for (const part of document.querySelectorAll('#scripts details')) part.open = true")
    browser.wait_for("document.querySelectorAll('#scripts .at-line').length === 2 && document.querySelectorAll('#scripts li').length > 3", "lines")
    same("present lines", browser.run(present), [["m", 3, "a"], ["c", 2, "b"]])
    browser.run("document.querySelectorAll('#scripts details')[1].querySelectorAll('button')[2].click()")
    same("the next event of the line that is clicked", browser.run("return page.run.trace.line(page.k)"), "b begin c 3")


def four_processors_among_the_examples(browser) -> None:
    browser.open(PAGE)
    names = browser.run("return Object.keys(EXAMPLES)")
    holds(f"no example on four processors: {names}", any("four" in name for name in names))
    for name in names:
        browser.run("page.openExample(arguments[0])", name)
        browser.wait_for("page.example === arguments_ && page.run.differences".replace("arguments_", repr(name)), name)
        same(name, browser.run("return page.run.differences"), [])


TESTS = [
    marks_tell_what_they_are,
    broken_file_is_drawn_to_its_bad_line,
    text_is_in_view_with_many_threads,
    overview_when_zoomed,
    whole_run_stays_whole,
    labels_are_whole,
    most_of_a_long_run_is_faint,
    event_in_the_address,
    scripts_with_the_present_lines,
    four_processors_among_the_examples,
]
