"""Clients in threads, and what they must receive: publishers of numbered events, and subscribers that get each event once and in order."""
from __future__ import annotations

import json
import threading

from base import TIMEOUT_SECONDS, wait_until
from daemon import CONNECT, HANDSHAKE, Connection, ConnectionEnded, expect_success, post


class Client(threading.Thread):
    """A client with a session, whose `work` runs in a thread until `is_over` is set.

    `wrong`: the error that ended it. `failed`: how many requests had no response, or a 503. `connection`: an open one, or `None`.
    """

    def __init__(self, address: tuple[str, int], **handshake) -> None:
        super().__init__(daemon=True)
        self.address, self.is_over = address, threading.Event()
        self.connection: Connection | None = None
        self.wrong: Exception | None = None
        self.failed = 0
        self.session = {"clientId": expect_success(self.ask({**HANDSHAKE, **handshake}), 1)[0]["clientId"]}

    def work(self) -> None:
        """Sends requests until `is_over` is set."""
        raise NotImplementedError

    def exchange(self, connection: Connection, message: dict) -> list[dict] | None:
        """Sends a message, and returns the items of the response, or `None` after a 503. Raises `ConnectionEnded` if it is missing."""
        connection.send(post(json.dumps([message]).encode()))
        response = connection.response()
        return None if response.status == 503 else response.items()

    def ask_once(self, message: dict) -> list[dict] | None:
        """Sends a message, and returns the items of the response, or `None` if it is missing or a 503."""
        try:
            self.connection = self.connection or Connection(self.address)
            items = self.exchange(self.connection, message)
        except ConnectionEnded:
            items = None
        if items is None:
            self.failed += 1
            self.close()
        return items

    def ask(self, message: dict) -> list[dict]:
        """Sends a message again and again until it has a response, and returns its items."""
        return wait_until(f"a response to {message}", lambda: self.ask_once(message))

    def close(self) -> None:
        """Closes the connection, if it is open."""
        if self.connection:
            self.connection.socket.close()
        self.connection = None

    def run(self) -> None:
        try:
            self.work()
        except Exception as error:  # pylint: disable=broad-exception-caught
            self.wrong = error
        self.close()

    def finish(self) -> None:
        """Lets the client end, and checks that it was right."""
        self.is_over.set()
        self.join(TIMEOUT_SECONDS)
        if self.wrong:
            raise self.wrong
        assert not self.is_alive(), f"{type(self).__name__}: it does not end"


class Publisher(Client):
    """A client that publishes `sent` numbered events to `channel`, each with `text`, on a new connection, and none twice.

    `pause`: the seconds between two events. `answered`: the numbers of those with a response.
    """

    def __init__(self, address: tuple[str, int], channel: str, pause: float = 0.0) -> None:
        super().__init__(address)
        self.channel, self.pause, self.text, self.sent = channel, pause, "", 0
        self.answered: list[int] = []

    def work(self) -> None:
        while not self.is_over.wait(self.pause):
            self.close()
            number, self.sent = self.sent, self.sent + 1
            items = self.ask_once({"channel": self.channel, "data": [number, self.text], **self.session})
            if items:
                expect_success(items, 1)
                self.answered.append(number)


class Subscriber(Client):
    """A client that checks that each event of publishers comes once and in order. `events`: their channels and numbers so far."""

    def __init__(self, address: tuple[str, int], pattern: str, is_acknowledging: bool = True) -> None:
        super().__init__(address, **({"ext": {"ack": True}} if is_acknowledging else {}))
        self.pattern, self.is_acknowledging, self.batch = pattern, is_acknowledging, 0
        self.events: list[tuple[str, int]] = []
        self.last: dict[str, int] = {}
        expect_success(self.ask({"channel": "/meta/subscribe", "subscription": pattern, **self.session}), 1)

    def matches(self, channel: str) -> bool:
        """Returns whether the pattern matches the channel of a publisher."""
        return self.pattern.endswith("*") or self.pattern == channel

    def connect(self, **members) -> dict:
        """Returns a connect with more `members`. It acknowledges the last batch."""
        return {**CONNECT, **self.session, **({"ext": {"ack": self.batch}} if self.is_acknowledging else {}), **members}

    def work(self) -> None:
        while not self.is_over.is_set():
            self.take(self.ask(self.connect()))
        while self.take(self.ask(self.connect(advice={"timeout": 0}))):
            pass

    def take(self, items: list[dict]) -> int:
        """Keeps the events of a response to a connect, and returns their number."""
        *events, reply = items
        expect_success([reply], 1)
        if self.is_acknowledging:
            batch = reply["ext"]["ack"]
            assert batch == self.batch + bool(events), f"batch {batch} of {len(events)} events after {self.batch} was acknowledged"
            self.batch = batch
        for it in events:
            self.keep(it["channel"], it["data"][0])
        return len(events)

    def keep(self, channel: str, number: int) -> None:
        """Keeps an event. It must not come again, or after a later one of its publisher."""
        last = self.last.get(channel, -1)
        assert last < number, f"event {number} of {channel} after {last}"
        self.last[channel] = number
        self.events.append((channel, number))


def check_events(publishers: list[Publisher], subscribers: list[Subscriber]) -> None:
    """Checks that acknowledging subscribers, one of them of all publishers, have the same events in the same order.

    These are all that were answered, and none that was not published.
    """
    events = max((it.events for it in subscribers), key=len)
    for it in subscribers:
        wanted = [event for event in events if it.matches(event[0])]
        assert it.events == wanted, f"only one of two clients has {sorted({*it.events} ^ {*wanted})}, or the order differs"
    for publisher in publishers:
        numbers = {number for channel, number in events if channel == publisher.channel}
        assert set(publisher.answered) <= numbers <= set(range(publisher.sent)), publisher.channel
