#!/usr/bin/python3
"""Takes the picture of the page that the README shows, docs/viewer.png."""
from browser import Browser
from judging import TOP
from page_tests import PAGE


def main() -> None:
    with Browser(width=1240, height=940) as browser:
        browser.open(PAGE)
        browser.run("page.openExample('copy-after-a-cut')")
        browser.wait_for("page.run", "the run")
        browser.run(
            "page.tellStory('thread', 0); page.tellStory('thread', 1); page.choose(14); page.timeline.drawNow()"
        )
        browser.screenshot(TOP / "docs" / "viewer.png")


if __name__ == "__main__":
    main()
