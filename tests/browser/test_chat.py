"""The chat in two windows: messages, and users who leave. From disk, and behind nginx."""
from __future__ import annotations

import pytest

from base import TOP, wait_until
from metrics import CONNECTS_HELD
from pages import talk

# Keeps the client of a page from noticing that it closes, as if its process had failed.
IGNORE_CLOSE = "window.addEventListener('pagehide', (it) => it.stopImmediatePropagation(), true)"


@pytest.fixture(params=["callback-polling", "long-polling"])
def transport(request):
    """The transport of the pages: from disk, or behind nginx with HTTP/2 and a Content-Security-Policy."""
    return request.param


@pytest.fixture
def ann_and_ben(transport, server, request, chat):
    """Two windows of the chat."""
    if transport == "callback-polling":
        address = f"file://{TOP}/examples/chat/index.html?server={server.address}"
    else:
        address = f"{request.getfixturevalue('nginx')(server.port)}/chat/"
    return chat(address, "Ann"), chat(address, "Ben")


def test_two_windows_show_each_message(transport, ann_and_ben, picture):
    ann, ben = ann_and_ben
    assert ann.element("#state").get_attribute("title") == transport
    talk(ann, ben)
    picture(ann, "chat")
    assert [len(it.texts("#messages li.own")) for it in (ann, ben)] == [2, 1]


def test_the_others_see_who_leaves_and_the_session_ends_at_once(server, ann_and_ben):
    """Windows that share a session end it with the last of them."""
    ann, ben = ann_and_ben
    ids = [it.run("return client.clientId") for it in ann_and_ben]
    assert all(map(server.has_session, ids))
    ann.driver.get("about:blank")
    ben.wait_notice("Ann", "left")
    if ids[0] != ids[1]:
        wait_until("the session of Ann has ended", lambda: not server.has_session(ids[0]))
    assert server.has_session(ids[1])
    ben.driver.get("about:blank")
    wait_until("the session of Ben has ended", lambda: not server.has_session(ids[1]))


def test_windows_share_one_session_and_another_one_continues_with_it(server, nginx, chat):
    """Eight clients are more than the six connections that a browser opens with HTTP/1.1. It ends the lock of a window that closes."""
    address = f"{nginx(server.port, {' http2': ''})}/chat/"
    ann, ben = chat(address, "Ann"), chat(address, "Ben")
    session = ann.run("return client.clientId")
    for it in (ann, ben):
        it.run("return Promise.all([1, 2, 3].map(() => new BayeuxClient('/cometd').start()))")
        assert it.run("return client.clientId") == session
    server.daemon.expect({CONNECTS_HELD: 1})
    talk(ann, ben)
    ann.run(IGNORE_CLOSE)
    ann.driver.get("about:blank")
    ben.send("After the close")
    wait_until("the message is shown", lambda: ben.messages()[3:] == ["After the close"])
    assert (ben.run("return client.clientId"), "may be missing" in ben.text(".notice")) == (session, False)
