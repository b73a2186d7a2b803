"""A Bayeux 1.0 client over long-polling.

    from gadzilk_client import Client

    with Client("http://127.0.0.1:8087/cometd") as client:
        client.publish("/chat/hall", {"text": "Hello"})
        for event in client.listen("/chat/*"):
            print(event.channel, event.data)
"""
from .client import DEFAULT_URL, Client, Event
from .errors import BayeuxError, Forbidden, HTTPStatus, InvalidResponse, Rejected, Unreachable

__all__ = ["DEFAULT_URL", "BayeuxError", "Client", "Event", "Forbidden", "HTTPStatus", "InvalidResponse", "Rejected", "Unreachable"]
__version__ = "0.3.0"
