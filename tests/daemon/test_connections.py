"""Connections: many of them, what they cost while clients wait, and a lack of descriptors."""
import errno
import json
import os
import resource
import selectors
import signal
import socket
import struct

import pytest

from base import readable, wait_until
from daemon import CONNECT, OWN_PAGES, SlowReader, check_serves, expect_status, get, open_session, post, publish_to
from metrics import OPEN, OPENED, SERVED, ask_for

# Errors of an accept that say something of the peer or of the system. The server then accepts the next connection.
ACCEPT_ERRORS = [
    *("EPERM", "EINTR", "EIO", "ENOMEM", "EACCES", "EFAULT", "EINVAL", "ENFILE", "EMFILE", "ENOSR", "EPROTO", "ENOPROTOOPT"),
    *("EPROTONOSUPPORT", "ESOCKTNOSUPPORT", "EOPNOTSUPP", "ENETDOWN", "ENETUNREACH", "ENETRESET", "ECONNABORTED", "ECONNRESET"),
    *("ENOBUFS", "ETIMEDOUT", "EHOSTDOWN", "EHOSTUNREACH", "ENONET"),
]
# The buffer of a client that does not read.
SMALL_BUFFER = 1 << 16


def test_next_connection_is_accepted_whatever_the_error_of_an_accept(daemon, system):
    server = daemon(env=system(ACCEPT_ERRORS=",".join(str(getattr(errno, it)) for it in ACCEPT_ERRORS)))
    check_serves(server.address, "/accepts")


def test_many_clients_that_connect_at_once_are_served(daemon, clock):
    """They are more than the daemon spawns tasks for before it yields to other tasks. Meanwhile it has no processor."""
    server = daemon(env=clock.env)
    os.kill(server.process.pid, signal.SIGSTOP)
    try:
        sockets = [socket.socket() for _ in range(400)]
        for it in sockets:
            it.setblocking(False)
            it.connect_ex(server.address)
    finally:
        os.kill(server.process.pid, signal.SIGCONT)
    for it in sockets:
        it.settimeout(60)
        assert readable(it, seconds=60, event=selectors.EVENT_WRITE), "a connection is not accepted"
        it.sendall(post(b"[]"))
    assert all(it.recv(1 << 10).startswith(b"HTTP/1.1 200 ") for it in sockets)
    server.expect({OPEN: len(sockets), OPENED: len(sockets)})
    for it in sockets:
        it.close()


@pytest.mark.timeout(900)
def test_clients_are_served_after_tens_of_thousands_of_connections(daemon, is_short):
    """Most have no request. So are those of the metrics listener, after thousands."""
    server, count = daemon(), 1000 if is_short else 66_000
    for number in range(1, count + 1):
        with socket.socket() as it:
            it.settimeout(60)
            it.connect(server.address)
            # The system's queue of new connections has room for a hundred.
            if number % 100 == 0 or number == count:
                it.sendall(post(b"[]"))
                assert it.recv(1 << 10).startswith(b"HTTP/1.1 200 "), f"connection {number}"
            # A reset, so that the system need not remember the connection.
            it.setsockopt(socket.SOL_SOCKET, socket.SO_LINGER, struct.pack("ii", 1, 0))
    server.expect({OPEN: 0, OPENED: count})
    for _ in range(count // 16):
        assert ask_for(server.metrics, get(b"", b"/healthz")).status == 200


def test_next_client_is_served_once_descriptors_are_free(daemon, client, clock):
    """The daemon pauses after an accept that failed, and these pauses are shorter than a second."""
    files = 40
    # Another listener would keep a descriptor for its next connection.
    flags = ["--listen", "127.0.0.1:0", "--until-eof"]
    limit = lambda: resource.setrlimit(resource.RLIMIT_NOFILE, (files, files))  # noqa: E731
    server = daemon(*flags, is_plain=True, env=clock.env, preexec_fn=limit)
    connections = [client(server) for _ in range(files + 5)]
    wait_until("the daemon has no free descriptor", lambda: server.descriptors() >= files)
    server.wait_until_idle("a free file descriptor")
    server.check_alive()

    def warnings():
        clock.add(0.1)
        return [it for it in server.logged("WARN") if it.startswith("few file descriptors are free connections=")]

    assert wait_until("the log says that few descriptors are free", warnings)[0].endswith(f" limit={files}")
    for it in connections:
        it.socket.close()
    wait_until("descriptors are free", lambda: server.descriptors() < files // 2)
    clock.add(1)
    check_serves(server.address, "/after")


@pytest.mark.alone
def test_responses_that_nobody_reads_share_their_events(daemon, client, clock, is_checked):
    """Each has a batch of a megabyte fifty times. docs/CONFIGURE.md allows 600,000 bytes for its pieces. A checked build takes 14 MB."""
    server, count, times = daemon(env={**clock.env, **OWN_PAGES}), 2, 50
    with client(server) as connection:
        sessions = [open_session(connection, ext={"ack": True}) for _ in range(count)]
        publish_to(server.address, sessions, [{"channel": "/large", "data": f"{number}" * 100_000} for number in range(10)])
        connects = [{**CONNECT, "ext": {"ack": 0}, **it} for it in sessions]
        for it in connects:
            connection.ask([it])
    before, served = server.kilobytes(), server.scrape()[SERVED]
    for it in connects:
        client(server, SMALL_BUFFER, kind=SlowReader).send(post(json.dumps([it] * times).encode()))
    server.expect({SERVED: served + count})
    server.wait_for_rest()
    assert (server.kilobytes() - before) * 1024 <= count * (30_000_000 if is_checked else 3_000_000)


@pytest.mark.alone
@pytest.mark.timeout(600)
@pytest.mark.parametrize("what", ["publishes", "refused bodies"])
def test_bodies_are_freed(daemon, client, ticks, what):
    """At the next ticks. The first bodies give the daemon the memory that it reuses later."""
    server = daemon(env={**ticks.env, **OWN_PAGES})
    connection = client(server)
    large, count, rounds = 200_000, 16, 3
    session = open_session(connection)
    small, whole = (json.dumps([{"channel": "/kept", "data": "x" * it, **session}]).encode() for it in (1, large - 100))
    # Many requests go with one tick.
    assert {it.status for it in connection.repeat(post(small), 100)} == {200}
    body, status = (whole, 200) if what == "publishes" else (b" " * large, 400)

    def kilobytes():
        """Returns the memory after `count` such bodies and a few ticks."""
        for _ in range(count):
            expect_status(connection, post(body), status)
        ticks.tick(5)
        assert server.scrape()["bayeux_window_batches", ""] == 0
        return server.kilobytes()

    first, *_, last = [kilobytes() for _ in range(1 + rounds)]
    # AddressSanitizer keeps some freed memory, but not half of all bodies.
    assert (last - first) * 1024 / large <= rounds * count / 2, "bodies are kept"
