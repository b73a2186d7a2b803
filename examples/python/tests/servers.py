"""A server that follows a script."""
from __future__ import annotations

import http.server
import json
import socket
import threading
import time
from typing import Any

# How long a test waits for what must happen, in seconds.
PATIENCE = 20.0


def rejected(channel: str, error: str, **advice: Any) -> dict[str, Any]:
    return {"channel": channel, "successful": False, "error": error, **({"advice": advice} if advice else {})}


def unknown(channel: str) -> dict[str, Any]:
    return rejected(channel, "402::Unknown client", interval=0, reconnect="handshake")


class Script(http.server.ThreadingHTTPServer):
    """A Bayeux server. It records each request, and answers as `next` says, otherwise as a server does that holds no connect."""

    daemon_threads = True

    def __init__(self) -> None:
        super().__init__(("127.0.0.1", 0), Handler)
        self.url = f"http://127.0.0.1:{self.server_address[1]}/cometd"
        self.requests: list[list[dict[str, Any]]] = []  # the messages of each
        self.heads: list[dict[str, str]] = []
        self.connections: set[Any] = set()
        self.answers: list[tuple[str, Any]] = []
        self.sessions = 0
        self.advice: dict[str, Any] = {"reconnect": "retry", "interval": 0, "timeout": 0}
        self.batches: list[list[dict[str, Any]]] = []  # the events of the next connects
        self.ack = 0
        threading.Thread(target=self.serve_forever, args=(0.01,), daemon=True).start()

    def next(self, channel: str, *answers: Any) -> None:
        """Answers the next messages on `channel`: with a reply, a status, bytes as the body, None to cut the connection, or `...` to break off."""
        self.answers += [(channel, it) for it in answers]

    def hold(self, channel: str) -> threading.Event:
        """Answers the next message on `channel` once the event is set."""
        done = threading.Event()
        self.next(channel, lambda: done.wait(PATIENCE) and {} or {})
        return done

    def wait(self, channel: str) -> None:
        """Waits for a message on `channel`."""
        while not self.messages(channel):
            time.sleep(0.001)

    def messages(self, channel: str) -> list[dict[str, Any]]:
        return [it for messages in self.requests for it in messages if it["channel"] == channel]

    def data(self, channel: str) -> list[list[Any]]:
        """Returns the data of the publishes to `channel`, by requests."""
        found = [[it["data"] for it in messages if it["channel"] == channel] for messages in self.requests]
        return [it for it in found if it]

    def reply(self, message: dict[str, Any]) -> list[dict[str, Any]]:
        channel = message["channel"]
        done = {"channel": channel, "successful": True}
        if channel == "/meta/handshake":
            self.sessions += 1
            self.ack = 0
            return [{**done, "clientId": f"session {self.sessions}", "ext": {"ack": True}, "advice": self.advice}]
        if channel == "/meta/connect":
            events = self.batches.pop(0) if self.batches else []
            self.ack += bool(events)
            return [*events, {**done, "ext": {"ack": self.ack}, "advice": self.advice}]
        return [done]

    def handle_error(self, *_: Any) -> None:
        """Clients may cut connections."""


class Handler(http.server.BaseHTTPRequestHandler):
    protocol_version = "HTTP/1.1"
    disable_nagle_algorithm = True
    server: Script

    def do_POST(self) -> None:
        script = self.server
        messages = json.loads(self.rfile.read(int(self.headers["Content-Length"])))
        script.requests.append(messages)
        script.heads.append(dict(self.headers))
        script.connections.add(self.client_address)
        items: list[dict[str, Any]] = []
        for message in messages:
            given = next((it for it in script.answers if it[0] == message["channel"]), None)
            if given is None:
                items += script.reply(message)
                continue
            script.answers.remove(given)
            _, answer = given
            if answer in (None, ...):
                if answer is not None:
                    self.send(200, b"[{", 9)
                return self.connection.shutdown(socket.SHUT_RDWR)
            if isinstance(answer, int):
                return self.send(answer, b"")
            if isinstance(answer, bytes):
                return self.send(200, answer)
            items += [answer() if callable(answer) else answer]
        self.send(200, json.dumps(items).encode())

    def send(self, status: int, content: bytes, length: int | None = None) -> None:
        self.send_response(status)
        self.send_header("Content-Length", str(length or len(content)))
        self.end_headers()
        self.wfile.write(content)

    def log_message(self, *_: Any) -> None:
        pass
