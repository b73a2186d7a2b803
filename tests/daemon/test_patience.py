"""For how long the daemon waits for its clients, and how long a hold and a session last, on a virtual clock (docs/PROTOCOL.md, docs/ERRORS.md)."""
import re

import pytest

from base import wait_until
from daemon import ConnectionEnded, SlowReader, expect_events, expect_status, expect_success, open_session, post, publish
from daemon import publish_to, send_connect, subscribe
from metrics import CONNECTS_HELD, OPEN, SESSIONS, TICKED, UPTIME

# How long the daemon waits for a request, for more of a body, and for the reader of a response, and how long a body may take.
PATIENCE, WHOLE_BODY = 30, 300
# A pause that is just short enough, the rest of the time, and the pause between the parts of a body.
ALMOST, REST, STEP = PATIENCE - 0.5, 1.0, 20
# 40 days, and 46 days for `--timeout` and `--max-interval`, in seconds. Together, these are more milliseconds than 32 bits can count.
DAYS, LONG = 3_456_000, 4_000_000
# The bytes of an event, and of the buffer of a client that does not read.
EVENT, SMALL_BUFFER = 1_000_000, 1 << 16
HEAD = b"POST /cometd HTTP/1.1\r\nhost: h\r\ncontent-type: application/json\r\n"
CHUNKED = HEAD + b"transfer-encoding: chunked\r\n\r\n"
# The status and the reason of the response to a body that is late, and those of other responses.
LATE, SERVED, ASKED_FOR = (400, "the body ended early"), (200, ""), (100, "")
# Requests that do not continue: the bytes sent, and the statuses and reasons of the responses before the connection ends.
UNFINISHED = {
    "no byte of a body": (HEAD + b"content-length: 100\r\n\r\n", [LATE]),
    "a part of a body": (HEAD + b"content-length: 100\r\n\r\n[{", [LATE]),
    "a part of a long body": (HEAD + b"content-length: 1000000\r\n\r\n" + b" " * 200000, [LATE]),
    "a chunk, and no further one": (CHUNKED + b"2\r\n[{\r\n", [LATE]),
    "a part of a chunk": (CHUNKED + b"100\r\n[{", [LATE]),
    "a body that waits to be asked for": (HEAD + b"expect: 100-continue\r\ncontent-length: 9\r\n\r\n", [ASKED_FOR, LATE]),
    "a request, and a part of a body": (post(b"[]") + HEAD + b"content-length: 9\r\n\r\n[", [SERVED, LATE]),
    "a request, and no further one": (post(b"[]"), [SERVED]),
    "a part of a head": (HEAD, []),
    "nothing": (b"", []),
}


@pytest.fixture
def server(daemon, client, clock):
    """A daemon with two listeners and long times, whose clock moves only when it is put forward. It holds a connect of a session."""
    found = daemon("--timeout", f"{LONG}s", "--max-interval", f"{LONG}s", "--readers", "127.0.0.1:0", env=clock.env)
    with client(found) as connection:
        found.session = open_session(connection)
        subscribe(connection, "/held", found.session)
    found.holder = client(found)
    send_connect(found.holder, found.session)
    found.expect({CONNECTS_HELD: 1, OPEN: 1})
    return found


def wait_for_timers(server):
    """Waits until the daemon has most probably noticed that its clock was put forward: some ticks pass."""
    first = server.scrape()[TICKED]
    wait_until("some ticks pass", lambda: server.scrape()[TICKED] > first + 1)


def has_ended(connection):
    """Returns whether the daemon has ended the connection. Appends what has arrived to its `input`."""
    connection.socket.setblocking(False)
    try:
        return not connection.receive()
    except BlockingIOError:
        return False
    finally:
        connection.socket.settimeout(connection.timeout)


def expect_end(name, connection, wanted):
    """Waits until the daemon has ended the connection, and checks the responses before. `name`: for the message."""
    wait_until(f"the connection ends: {name}", lambda: has_ended(connection))
    heads = re.findall(r"HTTP/1\.1 ([0-9]{3}) [^\r\n]*\r\n((?:[^\r\n]+\r\n)*)\r\n", connection.input.decode())
    assert [(int(status), "".join(re.findall(r"bayeux-error: (.*)\r", fields))) for status, fields in heads] == wanted, name


@pytest.mark.parametrize("listener", ["main", "readers"])
def test_each_listener_waits_for_thirty_seconds(server, client, clock, listener):
    connections = {name: client(server.readers if listener == "readers" else server) for name in UNFINISHED}
    for name, it in connections.items():
        it.send(UNFINISHED[name][0])
    server.expect({OPEN: 1 + len(connections)})
    for it in connections.values():
        it.wait_until_read()
    # Each timer has begun.
    server.wait_for_rest()
    clock.add(ALMOST)
    wait_for_timers(server)
    assert not [name for name, it in connections.items() if has_ended(it)], f"ended within {ALMOST} seconds"
    clock.add(REST)
    for name, it in connections.items():
        expect_end(name, it, UNFINISHED[name][1])


def test_body_may_take_five_minutes_in_parts_and_no_longer(server, client, clock):
    """Meanwhile an idle connection is served."""
    steps = WHOLE_BODY // STEP
    request = post(b"[%s]" % (b" " * steps))
    idle, whole, endless = client(server), client(server), client(server)
    for it in (whole, endless):
        it.send(request[: -steps - 1])
    for left in range(steps, 0, -1):
        if left > 1:
            whole.send(b" ")
        else:
            expect_status(whole, b" ]", 200)
        endless.send(b" ")
        for it in (whole, endless):
            it.wait_until_read()
        expect_status(idle, post(b"[]"), 200)
        clock.add(STEP)
    expect_end("a body in parts", endless, [LATE])


def test_response_waits_for_its_reader_for_thirty_seconds(server, client, clock):
    with client(server) as connection:
        sessions = [open_session(connection) for _ in range(2)]
    slow, stuck = (client(server, SMALL_BUFFER, kind=SlowReader) for _ in sessions)
    # More than the system buffers for a client.
    with open("/proc/sys/net/ipv4/tcp_wmem", encoding="ascii") as text:
        count = int(text.read().split()[2]) // EVENT + 3
    events = [{"channel": "/much", "data": chr(ord("a") + number % 26) * EVENT} for number in range(count)]
    publish_to(server.address, sessions, events)
    for it in zip((slow, stuck), sessions):
        send_connect(*it)
    # The daemon has begun to write, since something arrives.
    for it in (slow, stuck):
        it.receive()
    server.wait_for_rest()
    clock.add(ALMOST)
    wait_for_timers(server)
    expect_events(slow.response().items(), events)
    slow.socket.close()
    # The system may have taken some more of the other response.
    server.wait_for_rest()
    clock.add(PATIENCE + REST)
    server.expect({OPEN: 1})
    with pytest.raises(ConnectionEnded):
        stuck.response()


def test_hold_and_session_last_for_weeks(server, client, clock):
    clock.add(DAYS)
    wait_for_timers(server)
    with client(server) as connection:
        publish(connection, "/held", 1, server.session)
        expect_events(server.holder.response().items(), [{"channel": "/held", "data": 1}])
        # It sends nothing more.
        open_session(connection)
    send_connect(server.holder, server.session)
    server.expect({CONNECTS_HELD: 1})
    clock.add(LONG - REST)
    wait_for_timers(server)
    server.expect({CONNECTS_HELD: 1, SESSIONS: 2, UPTIME: int(clock.seconds)})
    clock.add(2 * REST)
    server.expect({CONNECTS_HELD: 0, SESSIONS: 1})
    expect_success(server.holder.response().items(), 1)


def test_daemon_takes_little_processor_time_while_it_waits(server, client, clock):
    """Whatever its clients have left unfinished. Its clock does not move, so that it waits for ever."""
    held = server.holder
    with client(server) as connection:
        session = open_session(connection)
    publish_to(server.address, [session], [{"channel": "/large", "data": f"{number:02}".ljust(200_000, "x")} for number in range(40)])
    send_connect(client(server, SMALL_BUFFER, kind=SlowReader), session)
    server.wait_until_idle("the reader of a response")
    for sent, _ in UNFINISHED.values():
        connection = client(server)
        connection.send(sent)
        connection.wait_until_read()
    server.wait_until_idle("requests that do not continue")
    # A request after the held connect, and the beginning of another one.
    held.send(post(b"[]") + post(b"[]")[:-1])
    server.wait_until_idle("an event, while the next request has arrived")
    # No free file descriptor for a connection, long after the last failed accept.
    clock.add(DAYS)
    with server.without_descriptors():
        waiting = [client(server) for _ in range(2)]
        server.wait_until_idle("a free file descriptor")
    clock.add(1)
    for it in waiting:
        expect_status(it, post(b"[]"), 200)
