"""What tests in Chromium share: a browser for each worker, its windows, and a server, also behind nginx."""
from __future__ import annotations

import contextlib
import os
import pathlib
import signal
from typing import Callable, Iterator

import pytest

from base import reserved_port
from browser import Browser, Window, browsing
from daemon import Connection, HANDSHAKE
from pages import Chat

WINDOWS = pytest.StashKey[list]()


def pytest_collection_modifyitems(items: list[pytest.Item]) -> None:
    """Marks the tests of this folder."""
    for it in items:
        if it.path.parent == pathlib.Path(__file__).parent:
            it.add_marker(pytest.mark.browser)


@pytest.hookimpl(hookwrapper=True)
def pytest_runtest_makereport(item: pytest.Item, call: pytest.CallInfo) -> Iterator[None]:
    """Adds the texts of the windows of a test that failed to its report, and keeps their pictures in its folder."""
    report = (yield).get_result()
    if report.failed and call.when == "call":
        for number, it in enumerate(item.stash.get(WINDOWS, [])):
            path = f"{item.funcargs['tmp_path']}/window-{number}.png"
            try:
                it.driver.save_screenshot(path)
                report.sections.append((f"the window in {path}, at {it.driver.current_url}", it.run("return document.body.innerText")))
            except Exception as error:  # A browser that hangs must not hide why the test failed.
                report.sections.append((f"window {number} cannot be shown", str(error)))


@pytest.fixture(scope="session")
def browser() -> Iterator[Browser]:
    """A headless Chromium. Skips the test if a package is missing."""
    with browsing() as browser:
        yield browser


class Server:
    """A bayeuxd at `port`, also after a restart."""

    def __init__(self, start_daemon: Callable, port: int) -> None:
        self.start_daemon, self.port = start_daemon, port
        self.address = f"http://127.0.0.1:{port}/cometd"
        self.start()

    def start(self, *flags: str) -> None:
        self.daemon = self.start_daemon("--listen", f"127.0.0.1:{self.port}", *flags)

    def restart(self, *flags: str) -> None:
        """Kills the daemon, and so all connections to it, and starts another one."""
        self.daemon.kill()
        self.start(*flags)

    @contextlib.contextmanager
    def pausing(self) -> Iterator[None]:
        """Lets the daemon do nothing until the block ends."""
        os.kill(self.daemon.process.pid, signal.SIGSTOP)
        try:
            yield
        finally:
            os.kill(self.daemon.process.pid, signal.SIGCONT)

    def ask(self, *messages: dict) -> list[dict]:
        """Posts `messages`, and returns the items of the response."""
        with Connection(self.daemon.address) as connection:
            return connection.ask(list(messages))

    def publish(self, channel: str, *values: object) -> None:
        """Publishes `values` in a session of their own."""
        session = {"clientId": self.ask(HANDSHAKE)[0]["clientId"]}
        messages = [{"channel": channel, "data": it, **session} for it in values]
        replies = self.ask(*messages, {"channel": "/meta/disconnect", **session})
        assert all(it["successful"] for it in replies), replies

    def has_session(self, client_id: str) -> bool:
        """Returns whether the server still has this session."""
        return self.ask({"channel": "/nobody", "data": 0, "clientId": client_id})[0]["successful"]


@pytest.fixture
def server(browser: Browser, daemon: Callable) -> Iterator[Server]:
    """A running `Server`."""
    with reserved_port() as port:
        yield Server(daemon, port)


@pytest.fixture
def windows(browser: Browser, request: pytest.FixtureRequest) -> Iterator[Callable]:
    """Keeps a window until the test ends: `windows(window)`, which returns it.

    No page may then have an error that it did not handle, or something that its Content-Security-Policy blocked.
    """
    kept = request.node.stash[WINDOWS] = []
    with contextlib.ExitStack() as stack:

        def keep(window: Window) -> Window:
            kept.append(window)
            stack.callback(window.close)
            return window

        yield keep
        troubles = [it.run("return window.troubles ?? []") for it in kept]
        assert not any(troubles), troubles


@pytest.fixture
def window(browser: Browser, windows: Callable) -> Callable[..., Window]:
    """Opens windows: `window(address)`. They are closed after the test."""
    return lambda *arguments: windows(Window(browser, *arguments))


@pytest.fixture
def chat(browser: Browser, windows: Callable) -> Callable[..., Chat]:
    """Opens windows of the chat: `chat(address, name)`."""
    return lambda *arguments: windows(Chat(browser, *arguments))


@pytest.fixture(scope="session")
def picture(pytestconfig: pytest.Config) -> Callable[[Window, str], None]:
    """Writes a picture of a window: `picture(window, name)`. It is out/pictures/NAME.png, from which docs/NAME.png is copied."""
    folder = pytestconfig.rootpath / "out/pictures"
    folder.mkdir(parents=True, exist_ok=True)
    return lambda window, name: window.driver.save_screenshot(f"{folder}/{name}.png")
