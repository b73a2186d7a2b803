"""The memory that clients can make a daemon use: at most 1.3 times what docs/CONFIGURE.md says, while another client is served."""
import json

import pytest

from base import wait_until
from daemon import CONNECT, FORM, HANDSHAKE, SlowReader, expect_error, expect_success, open_session, poll, post, subscribe
from metrics import CONNECTS_HELD, FILED, OPEN, REQUESTS_HELD

# The flags: how many sessions there may be, how many bytes of events and how many events wait for each, and the bytes of a body.
SESSIONS, BYTES, LIMIT, BODY = 500, 65536, 1024, 16384
# The bytes of an event's text. How many sessions have a held connect in place of events. How many connections have requests that do not
# end, and how many read no response.
SIZE, HELD, SLOW, UNREAD = 4096, 100, 200, 8
# How many events fit into BYTES.
FIT = min(LIMIT, BYTES // SIZE)
# What the table says, in bytes: REPLACED are the bytes that an invalid byte of a form becomes, and REPEATED those of a response for each
# byte of its request.
REPLACED, REPEATED = 3, 100
ALLOWED = {
    "events": SESSIONS * 1_500 + (SESSIONS - HELD) * (BYTES + FIT * 400),
    "held connects": HELD * (REPLACED * BODY + 1_000),
    "answers that nobody takes": SESSIONS * (2 * REPLACED * BODY + 1_000),
    "connections": (SLOW + UNREAD) * (BODY + 200_000),
    "responses that nobody reads": UNREAD * (BYTES + REPEATED * BODY + 600_000),
}


def text_of(messages):
    """Returns `messages` as JSON without spaces."""
    return json.dumps(messages, separators=(",", ":")).encode()


def filling(number):
    """Returns an event for the session `number`, whose text has SIZE bytes."""
    event = {"channel": f"/filled/{number}", "data": ""}
    return {**event, "data": "x" * (SIZE - len(text_of(event)))}


def fill(client, server):
    """Opens all sessions, and fills all but the last HELD of them. Returns the filled ones and the others."""
    connection, sessions = client(server), []
    for number in range(SESSIONS - 1):
        # Those whose responses are not read acknowledge.
        session = open_session(connection, **({"ext": {"ack": True}} if number < UNREAD else {}))
        subscribe(connection, f"/filled/{number}", session)
        sessions.append(session)
    expect_error(connection.ask([HANDSHAKE]), "503::Too many sessions")
    for number, session in enumerate(sessions[:-HELD]):
        for _ in range(FIT):
            expect_success(connection.ask([{**filling(number), **session}]), 1)
    return sessions[:-HELD], sessions[-HELD:]


def leave_answers(client, server, sessions):
    """Has connects of `sessions` with the longest ids held, and ends their connections, so that newer connects leave answers."""
    requests = []
    for session in sessions:
        # A form with an id of invalid bytes, each of which takes three in the daemon.
        head, tail = (b"message=" + text_of([{**CONNECT, "id": "_", **session}])).split(b'"_"')
        requests.append(post(head + b'"' + b"\xff" * (BODY - len(head) - len(tail) - 2) + b'"' + tail, FORM))
    others = server.scrape()[OPEN]
    for _ in range(3 * SESSIONS // HELD):
        connections = [client(server) for _ in requests]
        for connection, request in zip(connections, requests):
            connection.send(request)
        server.expect({CONNECTS_HELD: HELD, REQUESTS_HELD: HELD})
        for connection in connections:
            connection.socket.close()
        server.expect({OPEN: others})
    wait_until("old answers are dropped", lambda: server.scrape()[FILED] <= SESSIONS)


def slow_connections(client, server):
    """Returns connections with heads and bodies that do not end. Each has sent as much as the daemon accepts before the end."""
    found = [client(server) for _ in range(SLOW)]
    for number, connection in enumerate(found):
        body = b"POST /cometd HTTP/1.1\r\nhost: h\r\ncontent-length: %d\r\n\r\n" % BODY + b" " * (BODY - 100)
        connection.send(body if number % 2 else b"GET /cometd HTTP/1.1\r\nhost: h\r\nx: " + b"x" * 60_000)
    for it in found:
        it.wait_until_read()
    return found


def unread_connections(client, server, sessions):
    """Returns connections that ask for a batch of `sessions` as often as a request may, and read no response."""
    found = []
    for session in sessions:
        assert len(poll(client(server), session)) > 1, "no batch"
        text = {"channel": "/meta/connect", **session}
        found.append(client(server, 4096, kind=SlowReader))
        found[-1].send(post(text_of([text] * min(256, (BODY - 2) // (len(text_of(text)) + 1)))))
    return found


@pytest.mark.soak
@pytest.mark.alone
@pytest.mark.timeout(900)
def test_memory_is_at_most_what_the_page_says(daemon, client):
    """In the end, one more event overflows each filled session, which frees its events."""
    server = daemon(f"--sessions={SESSIONS}", f"--bytes={BYTES}", f"--limit={LIMIT}", f"--body={BODY}")
    before, taken, other = server.kilobytes(), {}, client(server)
    session = open_session(other)
    subscribe(other, "/other", session)

    def measure(what):
        """Serves the other client, and keeps the memory so far."""
        other.renew()
        expect_success(other.ask([{"channel": "/other", "data": 1, **session}]), 1)
        assert poll(other, session)[:-1] == [{"channel": "/other", "data": 1}]
        taken[what] = server.kilobytes() - before

    filled, empty = fill(client, server)
    measure("sessions")
    leave_answers(client, server, empty)
    measure("answers")
    slow = slow_connections(client, server)
    measure("connections")
    unread = unread_connections(client, server, filled[:UNREAD])
    server.wait_for_rest()
    measure("responses")
    for it in slow + unread:
        it.socket.close()
    connection = client(server)
    for number, full in enumerate(filled):
        expect_success(connection.ask([{**filling(number), **full}]), 1)
        expect_error(poll(connection, full), "413::Queue overflow")
    measure("nothing")
    print(f"KiB: {taken}, allowed: {sum(ALLOWED.values()) // 1024}")
    assert max(taken.values()) * 1024 <= 1.3 * sum(ALLOWED.values())
