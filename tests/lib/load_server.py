"""A small Bayeux server for tests of the load program. It keeps what it was sent, and treats one event wrongly."""
from __future__ import annotations

import collections
import dataclasses
import http.server
import json
import socket
import socketserver
import threading
from typing import Any

from base import wait_until
from system import Clock

# The number of events, and the number of the event that is treated wrongly, counted from 1.
EVENTS, WRONG = 10, 3
# The characters that the server adds to an event that it lengthens. The load reads 64 KiB at once.
LONG = 1_000_000
# The deeds after which only the wrong event has a latency.
LATENT = ("double", "delay", "change", "stray")
# How long a connect is held in real time, by how much each message puts the clock forward, in seconds, and after how many messages a
# server ends, since no run needs them.
HOLD, STEP, MOST_MESSAGES = 0.1, 0.001, 2_000
# A moment that no load reaches, so that an event with it arrives without a latency.
NEVER = 1 << 62


def response_of(content: object, status: bytes = b"200 OK", version: bytes = b"HTTP/1.1") -> bytes:
    """Returns a response with `content`: bytes, or what is sent as JSON."""
    body = content if isinstance(content, bytes) else json.dumps(content).encode()
    return b"%s %s\r\ncontent-type: application/json\r\ncontent-length: %d\r\n\r\n" % (version, status, len(body)) + body


def at_moment(event: dict, moment: int) -> dict:
    """Returns the event with another moment at which it was sent, in nanoseconds since the load started."""
    return {**event, "data": {**event["data"], "moment": moment}}


def kind_of(message: dict) -> str:
    """Returns the meta channel of `message`, or "publish"."""
    return message["channel"] if message["channel"].startswith("/meta/") else "publish"


@dataclasses.dataclass
class Session:
    """A session of the server. `events`: those that wait. `batch`: the number of the last batch, which is `outstanding`."""

    is_acknowledging: bool
    channel: str | None = None
    events: list[dict] = dataclasses.field(default_factory=list)
    outstanding: list[dict] = dataclasses.field(default_factory=list)
    batch: int = 0


class Server(socketserver.ThreadingTCPServer):
    """A Bayeux server. It does what `deed` names with the event that has the number WRONG, and keeps what it was sent.

    `messages`: each with the times of its arrival and directly before its response, or `None`. `heads`: those of all requests.
    `delivered`: the events in responses, each with the time directly before its response. `taken`: by client id, when the session
    sent its connects. Times are those of `clock`, the load's, in seconds. A subclass may change `publish`, `before` or `send`.
    """

    daemon_threads, allow_reuse_address, request_queue_size = True, True, 512
    # The most events of a response.
    most_events = 100

    def __init__(self, clock: Clock, deed: str = "pass") -> None:
        super().__init__(("127.0.0.1", 0), Handler)
        self.clock, self.deed, self.changed, self.published = clock, deed, threading.Condition(), 0
        self.sessions: dict[str, Session] = {}
        self.messages: list[list] = []
        self.heads: list[tuple[str, dict[str, str]]] = []
        self.delivered: list[tuple[dict, float, str]] = []
        self.delayed: list[dict] = []
        self.taken: dict[str, list[float]] = collections.defaultdict(list)
        threading.Thread(target=self.serve_forever, args=(0.05,), daemon=True).start()

    def __exit__(self, *_) -> None:
        self.shutdown()
        self.server_close()

    def handle_error(self, *_) -> None:
        """Ignores errors, because the load breaks off connects at its end."""

    def address(self) -> str:
        """Returns the address at which the server listens."""
        return f"127.0.0.1:{self.server_address[1]}"

    def publish(self, event: dict) -> None:
        """Adds the event to those that wait for the sessions of its channel, and after it the delayed ones."""
        deed = self.deed if self.published == WRONG else "pass"
        if deed == "delay":
            self.delayed = [event]
            return
        if deed == "lengthen":
            event = {**event, "more": "x" * LONG}
        if deed == "change":
            event = {**event, "data": {**event["data"], "number": 2 * EVENTS}}
        if deed == "pass" and self.deed in LATENT:
            event = at_moment(event, NEVER)
        for it in self.sessions.values():
            if it.channel == event["channel"]:
                events: dict[str, list[dict]] = {"lose": [], "double": [at_moment(event, NEVER), event]}
                it.events += events.get(deed, [event]) + self.delayed
            elif it.channel and deed == "stray":
                it.events.append(event)
        self.delayed = []
        self.changed.notify_all()

    def take(self, message: dict, session: Session) -> tuple[list[dict], dict]:
        """Returns the events for a connect, and the members of its reply."""
        if not session.is_acknowledging or message.get("ext", {}).get("ack") == session.batch:
            session.outstanding = []
        if not session.outstanding:
            if message.get("advice", {}).get("timeout") != 0:
                self.changed.wait_for(lambda: bool(session.events), HOLD)
            session.outstanding, session.events = session.events[: self.most_events], session.events[self.most_events :]
            session.batch += bool(session.outstanding)
        return session.outstanding, {"ext": {"ack": session.batch}} if session.is_acknowledging else {}

    def answer(self, message: dict) -> list[dict]:
        """Returns the items of the response to `message`."""
        channel, client = message["channel"], message.get("clientId", "")
        events: list[dict] = []
        members: dict[str, Any] = {}
        if channel == "/meta/handshake":
            client = f"{len(self.sessions)}c"
            self.sessions[client] = Session(message.get("ext") == {"ack": True})
        elif channel == "/meta/subscribe":
            self.sessions[client].channel = message["subscription"]
        elif channel == "/meta/connect":
            events, members = self.take(message, self.sessions[client])
        else:
            self.published += 1
            self.publish({"channel": channel, "data": message["data"]})
        return [*events, {"channel": channel, "successful": True, "clientId": client, **members}]

    def before(self, message: dict) -> None:
        """Called before `message` is answered, without a lock. Waits until a stray event has been read."""
        if self.deed == "stray" and kind_of(message) == "publish" and message["data"]["number"] == WRONG:
            wait_until("a connect after the stray event", self.has_read_all)

    def has_read_all(self) -> bool:
        """Returns whether each session has read its events so far, and has sent its next connect."""
        with self.changed:
            waiting = any(it.events for it in self.sessions.values())
            return not waiting and all(self.taken[client][-1] > sent for _, sent, client in self.delivered)

    def send(self, connection: socket.socket, message: dict, items: list[dict]) -> bool:
        """Sends the response to `message`. Returns `False` if the connection ends."""
        connection.sendall(response_of(items))
        return True

    def kinds(self, *kinds: str) -> list:
        """Returns the entries of `messages` that have one of `kinds` as their kind."""
        return [it for it in list(self.messages) if kind_of(it[0]) in kinds]

    def step(self) -> float:
        """Puts the clock forward by a little, and returns its time."""
        self.clock.add(STEP)
        return self.clock.seconds


class Handler(http.server.BaseHTTPRequestHandler):
    """A connection to the server."""

    protocol_version, disable_nagle_algorithm = "HTTP/1.1", True
    server: Server

    def log_message(self, format: str, *args: object) -> None:  # pylint: disable=redefined-builtin
        """Logs nothing."""

    def do_POST(self) -> None:  # pylint: disable=invalid-name
        """Keeps the message, and answers it."""
        server = self.server
        (message,) = json.loads(self.rfile.read(int(self.headers["content-length"])))
        with server.changed:
            if len(server.messages) >= MOST_MESSAGES:
                self.close_connection = True
                return
            arrived = server.step()
            entry = [message, arrived, None]
            server.heads.append((self.requestline, dict(self.headers.items())))
            server.messages.append(entry)
            if message["channel"] == "/meta/connect":
                server.taken[message["clientId"]].append(arrived)
            server.changed.notify_all()
        server.before(message)
        with server.changed:
            items = server.answer(message)
            entry[2] = sent = server.step()
            server.delivered += [(it, sent, message["clientId"]) for it in items[:-1]]
        self.close_connection = not server.send(self.request, message, items)
