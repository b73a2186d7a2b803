"""An HTTP connection that is kept for the next request."""
from __future__ import annotations

import base64
import contextlib
import http.client
import select
import socket
import ssl
import time
import urllib.parse
from collections.abc import Mapping

from .errors import HTTPStatus, Unreachable

# The server closes a connection after 30 seconds without a request (docs/PROTOCOL.md). One that has been idle for longer than this
# is not used again, in seconds.
MOST_IDLE = 20.0


def text_of(failure: Exception) -> str:
    """Returns what failed, such as `Connection refused`."""
    return getattr(failure, "strerror", None) or str(failure) or type(failure).__name__


class Connection:
    """A connection to one address. Only one thread at a time may use it, but any thread may call `abort`."""

    def __init__(self, url: str, context: ssl.SSLContext | None = None) -> None:
        parts = urllib.parse.urlsplit(url)
        if parts.scheme not in ("http", "https") or not parts.hostname:
            raise ValueError(f"url: expected an http: or https: address, got {url!r}")
        self._host, self._port, self._is_secure = parts.hostname, parts.port, parts.scheme == "https"
        self._target = urllib.parse.urlunsplit(("", "", parts.path or "/", parts.query, ""))
        self._context = context
        self._own_headers = {"Content-Type": "application/json"}
        if parts.username is not None:
            user = f"{urllib.parse.unquote(parts.username)}:{urllib.parse.unquote(parts.password or '')}"
            self._own_headers["Authorization"] = f"Basic {base64.b64encode(user.encode()).decode()}"
        self._connection: http.client.HTTPConnection | None = None
        self._last_use = 0.0

    def post(self, body: bytes, headers: Mapping[str, str], timeout: float) -> bytes:
        """Sends a POST, and returns the body of the response. Raises `HTTPStatus` or `Unreachable`."""
        connection = self._open(timeout)
        try:
            if connection.sock:
                connection.sock.settimeout(timeout)
            connection.request("POST", self._target, body, {**self._own_headers, **headers})
            response = connection.getresponse()
            content = response.read()
        except TimeoutError:
            self.close()
            raise Unreachable("no answer in time", True) from None
        except (OSError, http.client.HTTPException) as failure:
            self.close()
            raise Unreachable(text_of(failure), True) from failure
        except BaseException:
            self.close()
            raise
        self._last_use = time.monotonic()
        if response.will_close:
            self.close()
        if response.status != 200:
            raise HTTPStatus(response.status, response.headers.get("bayeux-error"))
        return content

    def _open(self, timeout: float) -> http.client.HTTPConnection:
        """Returns the connection, which is a new one if there is none or the server has closed it."""
        if self._connection and not self._is_usable(self._connection):
            self.close()
        if self._connection is None:
            if self._is_secure:
                self._connection = http.client.HTTPSConnection(self._host, self._port, timeout=timeout, context=self._context)
            else:
                self._connection = http.client.HTTPConnection(self._host, self._port, timeout=timeout)
            try:
                self._connection.connect()
            except OSError as failure:
                self.close()
                raise Unreachable(text_of(failure), False) from failure
        return self._connection

    def _is_usable(self, connection: http.client.HTTPConnection) -> bool:
        """Returns whether the connection can take a request: it has nothing to read, not even its end."""
        if connection.sock is None or time.monotonic() - self._last_use > MOST_IDLE:
            return False
        return not select.select([connection.sock], [], [], 0)[0]

    def abort(self) -> None:
        """Ends a request that another thread waits for."""
        connection = self._connection
        if connection and connection.sock:
            with contextlib.suppress(OSError):
                connection.sock.shutdown(socket.SHUT_RDWR)

    def close(self) -> None:
        if self._connection:
            self._connection.close()
            self._connection = None
