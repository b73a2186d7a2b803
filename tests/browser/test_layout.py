"""Pages on a narrow screen, in light and dark colors, and to a screen reader. The chat by keyboard alone."""
from __future__ import annotations

import pytest

from accessibility import faults
from base import TOP, wait_until
from browser import ENTER, TAB

# Adds 20 seconds of numbers to a card of the dashboard.
FILL = """
const clock = Date.now, now = clock();
for (let time = now - 20000; time <= now; time += 400) {
  Date.now = () => time;
  cards.get(arguments[0]).add(60 + 25 * Math.sin(time / 2000));
}
Date.now = clock;
cards.get(arguments[0]).draw();
"""
IS_END_SHOWN = """
const it = document.getElementById('messages');
return it.lastChild.getBoundingClientRect().bottom <= it.getBoundingClientRect().bottom;
"""
METRICS = {"bayeux_sessions": 3, 'bayeux_replies_total{kind="publish"}': 12, 'bayeux_replies_total{kind="connect"}': 1795793822}
WORDS = "A color for each name, and a word that is long: " + "x" * 60


@pytest.fixture
def disk(server):
    """Returns the address of a page on disk: `disk(path)`, from examples/ on."""
    return lambda path: f"file://{TOP}/examples/{path}?server={server.address}"


def test_chat_is_readable(server, disk, chat):
    page = chat(disk("chat/index.html"), "Ann")
    server.publish("/chat/hall", *({"name": f"Name {31 * number}", "text": WORDS} for number in range(12)))
    wait_until("all messages are shown", lambda: len(page.messages()) == 12)
    server.daemon.kill()
    page.wait_state("interrupted")
    page.send("Not sent")
    wait_until("the page says that it was not sent", lambda: page.texts("#problem:not([hidden])"))
    assert not faults(page)


def test_chat_keeps_its_end_in_view_if_the_screen_is_turned(server, disk, chat):
    page = chat(disk("chat/index.html"), "Ann")
    server.publish("/chat/hall", *({"name": "Ben", "text": WORDS} for _ in range(12)))
    wait_until("all messages are shown", lambda: len(page.messages()) == 12)
    for size in ((390, 420), (844, 390), (390, 420)):
        page.emulate(*size)
        wait_until("the newest message stays in view", lambda: page.run(IS_END_SHOWN))


def test_chat_can_be_used_by_keyboard_alone(server, disk, window):
    """An outline shows the focus, and the list of messages can be scrolled."""
    page = window(disk("chat/index.html"))
    assert not faults(page)
    page.press(*"Ann", ENTER)
    page.wait_state("connected")
    assert page.focus() == "text"
    page.press(*"By keys alone", ENTER)
    wait_until("the message is shown", lambda: page.texts("#messages li p") == ["By keys alone"])
    page.press(TAB)
    assert page.focus() == "Send"
    page.press_back()
    page.press_back()
    assert page.focus() == "messages"


def test_dashboard_is_readable(server, disk, window, picture):
    page = window(disk("dashboard/index.html") + "&seconds=20", 900, 960)
    page.wait_state("connected")
    assert not faults(page)
    server.publish("/dashboard/a-name-that-is-not-short", 12345.6, -125000, 1795793822)
    for name in ("wave", "CPU-percent"):
        server.publish(f"/dashboard/{name}", 60)
    wait_until("three cards are shown", lambda: len(page.texts(".card")) == 3)
    for name in ("wave", "CPU-percent"):
        page.run(FILL, f"/dashboard/{name}")
    picture(page, "dashboard")
    assert not faults(page)


def test_page_of_metrics_is_readable(server, disk, window):
    """Also if the metrics are old."""
    page = window(disk("dashboard/metrics.html"))
    page.wait_state("connected")
    assert not faults(page)
    server.publish("/metrics/all", {"metrics": METRICS, "help": {"bayeux_sessions": "Sessions that live."}})
    wait_until("the metrics are shown", lambda: page.texts("#metrics code"))
    assert not faults(page)
    page.run("const clock = Date.now; Date.now = () => clock() + 60000; showAge()")
    assert page.element("#age").is_displayed()
    assert not faults(page)


def test_status_page_is_readable(server, window):
    page = window("http://{}:{}/".format(*server.daemon.metrics))
    page.wait_state("connected")
    assert not faults(page)


def test_error_is_readable(disk, window):
    page = window(disk("dashboard/index.html").replace("http", "ftp"))
    assert "is not a server address" in page.text("#error:not([hidden])")
    assert not faults(page)
