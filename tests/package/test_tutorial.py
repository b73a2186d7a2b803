"""The first tutorial of docs/TUTORIAL.md, with the page's own commands and files, under systemd."""
import contextlib
import re

from base import section, wait_until
from browser import Window, browsing, missing_package

PAGE = "https://localhost/load/"
PUBLISH = "return client.publish('/load/here', 9).then(() => 'published', ({ message }) => message)"


def steps():
    """Yields the title of each step of the tutorial, and its fenced blocks: the text before, the language, and the text of each."""
    for step in re.split(r"^### ", section("docs/TUTORIAL.md", "A live dashboard"), flags=re.M)[1:]:
        yield step.splitlines()[0], re.findall(r"((?:(?!^```).)*?)^```(\w+)\n(.*?)^```$", step, re.M | re.S)


def follow(machine, blocks):
    """Runs the commands of a step, writes its files, and compares the output with the step's."""
    printed = ""
    for before, language, text in blocks:
        if language == "text":
            last = printed.strip().rpartition("\n")[2]
            assert re.fullmatch(re.sub(r"\d+", r"\\d+", re.escape(text.strip())), last), f"{last!r} was printed, and not {text!r}"
        elif language != "sh":
            machine.write(re.findall(r"`(/[^`]+)`", before)[-1], text)
        elif "shell" in before:
            # It runs on. Only the command in the third shell prints.
            shell = machine.start(text)
            printed = shell.stdout.readline() if "third" in before else ""
        else:
            printed = machine.run(text)


def count(page):
    """Returns the number of points of the page's curve."""
    return len((page.run("return document.getElementById('curve').getAttribute('points')") or "").split())


def look(page, step):
    """Checks what the step of this number says of the tutorial's page."""
    wait_until("the page is connected", lambda: page.text("#state").startswith("connected"))
    if step in "567":
        before = count(page)
        wait_until("the curve grows", lambda: count(page) > before + 2)
    if step == "6":
        assert "HTTP status 403" in page.run(PUBLISH)


def test_tutorial(machine):
    """Without a browser, only the commands run."""
    name = re.search(r"\./(gadzilk_\S+\.deb)", section("docs/TUTORIAL.md", "A live dashboard"))[1]
    machine.run(f"mv gadzilk.deb {name}")
    with machine.network(), contextlib.nullcontext() if missing_package() else browsing() as browser:
        page = None
        for title, blocks in steps():
            follow(machine, blocks)
            if browser and title[0] in "35":
                page = Window(browser, PAGE)
            if browser and title[0] in "3567":
                look(page, title[0])
