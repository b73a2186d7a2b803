"""What the client raises."""
from __future__ import annotations

import re
from collections.abc import Mapping
from typing import Any


class BayeuxError(Exception):
    """A request failed.

    `may_have_arrived`: whether the server may have done what was asked, since no reply arrived. Whoever then publishes again may
    publish twice.
    """

    may_have_arrived = False


class Rejected(BayeuxError):
    """The server rejected a message. The text is its error, such as `400::Invalid channel`.

    `number`: the error's number, such as 400. `reconnect`: the server's advice, such as `handshake` or `none`, if it has one.
    """

    def __init__(self, text: str, reconnect: str | None = None) -> None:
        super().__init__(text)
        found = re.match(r"(\d{3}):", text)
        self.number = int(found[1]) if found else None
        self.reconnect = reconnect

    @classmethod
    def of(cls, reply: Mapping[str, Any], what: str = "") -> Rejected:
        """Returns the error of a reply that is not successful. `what`: what was asked for, if the text shall say so."""
        text = str(reply.get("error", "the server gave no reason"))
        failure = cls(text, (reply.get("advice") or {}).get("reconnect"))
        if what:
            failure.args = (f"{what}: {text}",)
        return failure


class Unreachable(BayeuxError, OSError):
    """There was no response, or not in time."""

    def __init__(self, text: str, may_have_arrived: bool) -> None:
        super().__init__(text)
        self.may_have_arrived = may_have_arrived


class InvalidResponse(BayeuxError, OSError):
    """The response is not from a Bayeux server."""

    may_have_arrived = True


class HTTPStatus(BayeuxError, OSError):
    """The response has another HTTP status than 200, which is in `status`. `reason`: what the server says of it, or None."""

    def __init__(self, status: int, reason: str | None = None) -> None:
        super().__init__(f"HTTP status {status}: {reason}" if reason else f"HTTP status {status}")
        self.status, self.reason = status, reason
        # Other statuses mean that nothing has changed (docs/PROTOCOL.md, "Where something fails").
        self.may_have_arrived = status >= 500 and status != 501


class Forbidden(HTTPStatus):
    """HTTP status 403: publishing to this channel is not allowed here. The session continues."""

    def __init__(self, reason: str | None = None) -> None:
        super().__init__(403, reason)
        self.args = ("publishing is not allowed here: HTTP status 403",)
