"""The limits of packaging/nginx/location.conf for each client, and that no response fills the disk."""
import contextlib
import socket

import pytest
from base import TIMEOUT_SECONDS, readable, wait_until
from nginx import Nginx, ask_over

# A request may pause for an hour.
LOCATION = "location /cometd { include /etc/nginx/bayeux/location.conf; proxy_pass http://bayeuxd; client_body_timeout 1h; }"
# The test sends the client's address in a header field.
REAL_ADDRESSES = {"proxy_pass": "set_real_ip_from 127.0.0.1; real_ip_header X-Address; proxy_pass"}
# A request a minute, so that the test's own speed does not count, and more connections than it has.
SLOW = {"rate=500r/s": "rate=1r/m", "rate=50r/s": "rate=1r/m", "bayeux_connections 100": "bayeux_connections 1000"}
# Short and long bodies that get the same answer.
SHORT, LONG = "[]", "[]".ljust(1000)
JSON = {"Content-Type": "application/json"}


def open_request(nginx: Nginx, address: str, stack: contextlib.ExitStack) -> bytes:
    """Sends the head of a request for the client `address`, and returns the status: 100 if nginx waits for the body."""
    connection = stack.enter_context(socket.create_connection(nginx.place, TIMEOUT_SECONDS))
    head = f"POST /cometd HTTP/1.1\r\nHost: localhost\r\nX-Address: {address}\r\nContent-Length: 2\r\nExpect: 100-continue\r\n\r\n"
    connection.sendall(head.encode())
    return connection.recv(200).split()[1]


@pytest.mark.parametrize(
    "addresses, same, other",
    [
        (["192.0.2.1"] * 100, "192.0.2.1", "192.0.2.2"),
        ([f"2001:db8::{it:x}:{it:x}" for it in range(1, 101)], "2001:db8:0:0:ffff::1", "2001:db8:0:1::1"),
    ],
    ids=["IPv4", "IPv6"],
)
def test_a_client_is_an_address_or_a_network(addresses: list[str], same: str, other: str, server, recipe) -> None:
    """A client may have 100 open requests. With IPv6, all addresses of a /64 network are one client."""
    nginx = recipe(LOCATION, server(), REAL_ADDRESSES)
    with contextlib.ExitStack() as stack:
        assert {open_request(nginx, it, stack) for it in addresses} == {b"100"}
        assert [open_request(nginx, it, stack) for it in (same, other)] == [b"429", b"100"]
    wait_until("nginx serves the client again", lambda: nginx.status(X_Address=same) == 200)


def test_short_requests_are_spared(server, recipe) -> None:
    """While a client's second long request waits, 101 short ones pass. The log says which was delayed."""
    nginx = recipe(LOCATION, server(), shared=SLOW)
    with nginx.connect() as connection, nginx.connect() as waiting:
        assert ask_over(connection, body=LONG).text == "[]"
        waiting.request("POST", "/cometd", LONG, JSON)
        assert {ask_over(connection, body=SHORT).text for _ in range(101)} == {"[]"}
        assert not readable(waiting.sock)
    log = nginx.folder / "var/log/nginx/access.log"
    lines = wait_until("the log has all requests", lambda: (it := log.read_text(encoding="utf-8").splitlines())[102:] and it)
    assert sorted(it.rpartition(" ")[2] for it in lines) == ["DELAYED", *["PASSED"] * 102]


def test_requests_above_the_burst_are_rejected(server, recipe) -> None:
    nginx = recipe(LOCATION, server(), shared=SLOW)
    with contextlib.ExitStack() as stack:
        crowd = [stack.enter_context(nginx.connect()) for _ in range(210)]
        statuses: set[int] = set()
        for it in crowd:
            it.request("POST", "/cometd", LONG, JSON)
        while len(statuses) < 2:
            ready = [it for it in crowd if it.sock and readable(it.sock, seconds=0.01)]
            statuses |= {it.getresponse().status for it in ready}
            crowd = [it for it in crowd if it not in ready]
        assert statuses == {200, 429} and len(crowd) >= 200


def test_response_that_is_read_slowly_is_not_written_to_the_disk(server, recipe) -> None:
    """nginx gets a response of 300 kB at once, and sends 100 kB of it a second. It has buffers for less."""
    location = LOCATION.replace("client_body_timeout", "limit_rate 100k; client_body_timeout")
    nginx = recipe(location, server(), shared={"bayeux-error.log crit": "bayeux-error.log warn"})
    client = nginx.handshake()
    nginx.send(channel="/meta/subscribe", subscription="/a", clientId=client)
    for _ in range(5):
        nginx.send(channel="/a", data="x" * 60_000, clientId=client)
    assert len(nginx.send(channel="/meta/connect", connectionType="long-polling", clientId=client)) == 6
    assert "temporary file" not in (nginx.folder / "var/log/nginx/bayeux-error.log").read_text(encoding="utf-8")
