"""Users who leave a page and return with Back, and pages that are hidden or frozen."""
from __future__ import annotations

import time

import pytest

from base import wait_until
from browser import Window
from metrics import CONNECTS_HELD

# Records the data of events, and the moment of each gap in milliseconds.
RECORD = """
Object.assign(window, { seen: [], moments: [] });
client.addEventListener('gap', ({ since }) => moments.push(since.getTime()));
return client.subscribe('/a', (data) => seen.push(data));
"""


def test_frozen_page_reports_a_gap_since_before_the_first_lost_event(server, nginx, window, tmp_path):
    """A response that arrives while the page is frozen does not hide that later events are lost."""
    log = tmp_path / f"nginx-{server.port}/var/log/nginx/access.log"
    page = window(f"{nginx(server.port)}/dashboard/")
    page.wait_state("connected")
    page.run(RECORD)
    server.daemon.expect({CONNECTS_HELD: 1})
    answered = log.read_text()
    # As a phone does while it is locked.
    page.hide()
    page.command("Page.setWebLifecycleState", state="frozen")
    server.publish("/a", "arrives at the frozen page")
    wait_until("the response is sent", lambda: log.read_text() != answered)
    lost = time.time() * 1000
    server.restart()
    server.publish("/a", "lost")
    page.command("Page.setWebLifecycleState", state="active")
    page.show()
    [gap] = wait_until("the client reports a gap", lambda: page.run("return moments"))
    page.wait_state("connected")
    server.publish("/a", "after the return")
    wait_until("the next event comes", lambda: page.run("return seen") == ["arrives at the frozen page", "after the return"])
    assert gap <= lost


def leave_and_return(server, page: Window, address: str) -> None:
    """Goes to another page of the same site, and presses Back. The browser must have kept the page.

    Chromium drops a page that gets a response meanwhile, so there is none.
    """
    page.run("window.isKept = true")
    with server.pausing():
        page.driver.get(f"{address}/common/page.css")
        page.driver.back()
    assert page.run("return window.isKept"), "the browser has not kept the page"


@pytest.mark.parametrize("changes", [{}, {" http2": ""}], ids=["HTTP/2", "HTTP/1.1"])
def test_chat_continues_after_back(server, nginx, chat, changes):
    address = nginx(server.port, changes)
    ann, ben = chat(f"{address}/chat/", "Ann"), chat(f"{address}/chat/", "Ben")
    leave_and_return(server, ann, address)
    ann.wait_state("connected")
    ben.wait_notice("Ann", "left")
    wait_until("Ben sees that Ann is back", lambda: [it for it in ben.texts(".notice") if "Ann" in it][-1].endswith("joined"))
    ben.send("Welcome back")
    ann.wait_messages(["Welcome back"])
