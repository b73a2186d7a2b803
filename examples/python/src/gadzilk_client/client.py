"""A client with one session."""
from __future__ import annotations

import contextlib
import datetime
import json
import logging
import os
import random
import ssl
import threading
import time
from collections.abc import Callable, Iterable, Iterator, Mapping
from types import TracebackType
from typing import Any, NamedTuple

from .connection import Connection
from .errors import BayeuxError, Forbidden, HTTPStatus, InvalidResponse, Rejected

DEFAULT_URL = "http://127.0.0.1:8087/cometd"
# What a request has at most: messages, and bytes, with the package's flags (docs/PROTOCOL.md, "Requests"). The last
# number is that of the patterns of a message.
MOST_MESSAGES, MOST_BYTES, MOST_PATTERNS = 32, 60_000, 64
# HTTP statuses with which a request has no effect because of one of its messages, or of its size.
REFUSED_AS_A_WHOLE = (403, 413)

Headers = Mapping[str, str]
Message = dict[str, Any]
logger = logging.getLogger("gadzilk_client")


class Event(NamedTuple):
    """What was published to a channel. Anybody may have published it, so check the type of `data`."""

    channel: str
    data: Any


class Client:
    """A session with a server. It opens when it is first needed, and ends with `close` or the end of a `with` block.

    Any thread may publish, while one of them listens.

    `url`: the server's address, which may have a user and a password. By default, that of the environment variable BAYEUX_URL or
    DEFAULT_URL. `name`: the session's name, which finds it in a record of the server. `headers`: header fields of each request, or a
    function that returns them. `ext`: the extensions of each handshake, such as a token, or a function that returns them. `on_gap`: is
    called by `listen` if events may be missing since a moment, because a new session has replaced the earlier one. `timeout`: the
    seconds to wait for a response, in addition to the time that the server holds it. `min_pause`, `max_pause`: the first and the
    longest pause of `listen` after failures, in seconds. `patience`: `listen` raises the last failure after this number of seconds
    without a success; by default it tries for ever. `context`: for TLS.
    """

    def __init__(
        self,
        url: str | None = None,
        *,
        name: str | None = None,
        headers: Headers | Callable[[], Headers] | None = None,
        ext: Mapping[str, Any] | Callable[[], Mapping[str, Any]] | None = None,
        on_gap: Callable[[datetime.datetime], object] | None = None,
        timeout: float = 10.0,
        min_pause: float = 0.25,
        max_pause: float = 10.0,
        patience: float | None = None,
        context: ssl.SSLContext | None = None,
    ) -> None:
        self.url = url if url is not None else os.environ.get("BAYEUX_URL", DEFAULT_URL)
        self.name, self.headers, self.ext, self.on_gap = name, headers, ext, on_gap
        self.timeout, self.min_pause, self.max_pause, self.patience = timeout, min_pause, max_pause, patience
        # Connects have a connection of their own, since the server holds them.
        self._connects, self._others = Connection(self.url, context), Connection(self.url, context)
        self._lock = threading.RLock()  # for `_others` and the session
        self._listening = threading.Lock()
        self._closed = threading.Event()
        self._id: str | None = None
        self._batch = 0  # the number of the last batch of events that arrived
        self._advice: dict[str, Any] = {}

    @property
    def client_id(self) -> str | None:
        """The session's secret id, or None if there is no session."""
        return self._id

    def __enter__(self) -> Client:
        return self

    def __exit__(self, kind: type[BaseException] | None, value: BaseException | None, trace: TracebackType | None) -> None:
        self.close()

    def __repr__(self) -> str:
        return f"<gadzilk_client.Client {self.url}{' with a session' if self._id else ''}>"

    # Requests

    def _ask(self, connection: Connection, messages: list[Message], hold: float = 0.0) -> tuple[list[Message], list[Message]]:
        """Sends messages, and returns the events and the replies of the response. `hold`: how long it may be held, in seconds."""
        session = self._id
        own = {"clientId": session} if session else {}
        body = json.dumps([{**it, **own} for it in messages], ensure_ascii=False, allow_nan=False, separators=(",", ":"))
        headers = self.headers() if callable(self.headers) else self.headers or {}
        content = connection.post(body.encode("utf-8", "surrogatepass"), headers, hold + self.timeout)
        try:
            items = json.loads(content)
        except ValueError as failure:
            raise InvalidResponse("the response is not JSON") from failure
        if not isinstance(items, list) or not all(isinstance(it, dict) and "channel" in it for it in items):
            raise InvalidResponse("the response is not a list of messages")
        replies = [it for it in items if "successful" in it]
        if len(replies) != len(messages):
            raise InvalidResponse(f"{len(messages)} messages got {len(replies)} replies")
        for reply in replies:
            advice = reply.get("advice") or {}
            self._advice.update(advice)
            if not reply["successful"] and advice.get("reconnect") == "handshake" and self._id == session:
                self._id = None  # The session is gone.
        return [it for it in items if "successful" not in it], replies

    def _ask_one(self, connection: Connection, message: Message, hold: float = 0.0) -> tuple[list[Message], Message]:
        """Sends one message, and returns the events and the reply. Raises `Rejected` if the server rejects it."""
        events, [reply] = self._ask(connection, [message], hold)
        if not reply["successful"]:
            raise Rejected.of(reply)
        return events, reply

    def _open(self) -> str:
        """Opens a session if there is none, and returns its id."""
        with self._lock:
            if self._id is None:
                own = self.ext() if callable(self.ext) else self.ext or {}
                ext: dict[str, Any] = {**own, "ack": True, **({"name": self.name} if self.name is not None else {})}
                handshake = {"channel": "/meta/handshake", "version": "1.0", "supportedConnectionTypes": ["long-polling"], "ext": ext}
                _, reply = self._ask_one(self._others, handshake)
                if not isinstance(reply.get("clientId"), str):
                    raise InvalidResponse("the handshake's reply has no clientId")
                self._id, self._batch = reply["clientId"], 0
            return self._id

    # Publishing

    def publish(self, channel: str, data: Any) -> None:
        """Publishes. If the session has expired, opens a new one and publishes again.

        Raises `Rejected` or `Forbidden` if the server does not take it, another `BayeuxError` if there is no reply, and `ValueError` or
        `TypeError` if `data` cannot be JSON.
        """
        [failure] = self.publish_all([(channel, data)])
        if failure:
            raise failure

    def publish_all(self, messages: Iterable[tuple[str, Any]]) -> list[BayeuxError | None]:
        """Publishes pairs of a channel and data, in order, many in one request.

        Returns the failure of each, or None if it was published. If a request gets no response, those of later requests are not sent.
        """
        waiting = [{"channel": channel, "data": data} for channel, data in messages]
        sizes = [len(json.dumps(it, ensure_ascii=False, allow_nan=False).encode("utf-8", "surrogatepass")) + 80 for it in waiting]
        outcomes: list[BayeuxError | None] = []
        while waiting:
            count, size = 0, 0
            while count < len(waiting) and count < MOST_MESSAGES and (count == 0 or size + sizes[len(outcomes) + count] <= MOST_BYTES):
                size += sizes[len(outcomes) + count]
                count += 1
            some, waiting = waiting[:count], waiting[count:]
            outcomes += self._publish(some)
        return outcomes

    def _publish(self, messages: list[Message]) -> list[BayeuxError | None]:
        """Publishes messages in one request. Those that an expired session has not taken are sent again in a new one."""
        with self._lock:
            session = self._open()
            try:
                replies = self._ask(self._others, messages)[1]
                outcomes: list[BayeuxError | None] = [None if it["successful"] else Rejected.of(it) for it in replies]
            except HTTPStatus as failure:
                if len(messages) > 1 and failure.status in REFUSED_AS_A_WHOLE:
                    return [outcome for it in messages for outcome in self._publish([it])]
                refused = Forbidden(failure.reason) if failure.status == 403 else failure
                if len(messages) > 1 or failure.may_have_arrived:
                    raise
                return [refused]
            gone = [at for at, outcome in enumerate(outcomes) if isinstance(outcome, Rejected) and outcome.reconnect == "handshake"]
            if gone and self._id != session:
                self._open()
                self._connects.abort()  # `listen` must not wait in the session that is gone.
                for at, reply in zip(gone, self._ask(self._others, [messages[it] for it in gone])[1]):
                    outcomes[at] = None if reply["successful"] else Rejected.of(reply)
            return outcomes

    # Listening

    def listen(self, *patterns: str) -> Iterator[Event]:
        """Yields each event of the patterns once, in order, until `close` is called.

        After a lost connection or session it waits and tries again. Raises `Rejected` if the server rejects a pattern or advises not to
        try again. Only one thread may listen.
        """
        if not patterns:
            raise ValueError("patterns: expected at least one")
        if not self._listening.acquire(blocking=False):
            raise RuntimeError("this client already listens")
        try:
            yield from self._listen(patterns)
        finally:
            self._listening.release()

    def _listen(self, patterns: tuple[str, ...]) -> Iterator[Event]:
        self._closed.clear()
        subscribed: str | None = None  # the id of the session that has the patterns
        since = datetime.datetime.now(datetime.timezone.utc)
        pause, last_success = self.min_pause, time.monotonic()
        while not self._closed.is_set():
            session = None
            try:
                session = self._open()
                if session != subscribed:
                    self._subscribe(patterns)
                    had_one, subscribed = subscribed is not None, session
                    logger.info("%s: subscribed to %s", self.url, ", ".join(patterns))
                    if had_one and self.on_gap:
                        self.on_gap(since)
                    since = datetime.datetime.now(datetime.timezone.utc)
                begin = datetime.datetime.now(datetime.timezone.utc)
                # Acknowledges what arrived. The server sends the events of a lost response again.
                connect = {"channel": "/meta/connect", "connectionType": "long-polling", "ext": {"ack": self._batch}}
                events, reply = self._ask_one(self._connects, connect, self._advice.get("timeout", 0) / 1000)
            except (BayeuxError, OSError) as failure:
                if self._closed.is_set():
                    return
                is_lost = session is not None and session != self._id
                is_final = isinstance(failure, Rejected) and (failure.reconnect == "none" or not (is_lost or session is None))
                if is_final or self.patience is not None and time.monotonic() - last_success > self.patience:
                    raise
                logger.warning("%s: %s; trying again", self.url, failure)
                if is_lost:
                    pause = self.min_pause  # The server can be reached.
                # A random length, so that not all clients return at once when a server restarts.
                self._closed.wait(pause * random.uniform(0.5, 1))
                pause = min(2 * pause, self.max_pause)
                continue
            self._batch = (reply.get("ext") or {}).get("ack", 0) if self._id == session else self._batch
            pause, last_success = self.min_pause, time.monotonic()
            if events:
                since = begin
            yield from (Event(it["channel"], it.get("data")) for it in events)
            if (reply.get("advice") or {}).get("reconnect") == "none":
                # A disconnect has ended the session, and with it this connect.
                self._id = None
                if not self._closed.is_set():
                    raise Rejected("the session was ended", "none")
            self._closed.wait(self._advice.get("interval", 0) / 1000)

    def _subscribe(self, patterns: tuple[str, ...]) -> None:
        for first in range(0, len(patterns), MOST_PATTERNS):
            some = list(patterns[first : first + MOST_PATTERNS])
            message = {"channel": "/meta/subscribe", "subscription": some[0] if len(some) == 1 else some}
            _, [reply] = self._ask(self._connects, [message])
            if not reply["successful"]:
                raise Rejected.of(reply, ", ".join(some))

    # The end

    def close(self) -> None:
        """Ends the session and `listen`, from any thread. If the server cannot be reached, the session expires there."""
        self._closed.set()
        with self._lock:
            if self._id:
                with contextlib.suppress(BayeuxError, OSError):
                    self._ask_one(self._others, {"channel": "/meta/disconnect"})
            self._id = None
            self._others.close()
        self._connects.abort()
        if not self._listening.locked():
            self._connects.close()
