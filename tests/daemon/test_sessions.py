"""Sessions and their events: handshakes, publishes, limits, replies with events, and client ids."""
import itertools
import json

import pytest

from chacha import drawn
from daemon import AT_ONCE, CONNECT, HANDSHAKE, MOST_MESSAGES, SEED, by_callback, by_form, check_serves, close_all, expect_error
from daemon import expect_events, expect_status, expect_success, get, hold_connect, open_many, open_session, poll, post, publish
from daemon import send_connect, subscribe
from metrics import CONNECTS_HELD, FILED, REQUESTS_HELD, SESSIONS, read_list

CHANNEL = "/loopback"
# Positional arguments, which have no names.
ARGUMENTS = ["127.0.0.1:0", "2", "30000", "0", "600000", SEED]
# The most sessions that may live, and the most of them that a list shows.
MOST, MOST_LISTED = 65_536, 1000


def test_event_reaches_a_waiting_client(daemon, client):
    """With positional arguments. tests/daemon/test_flags.py tests what each flag changes."""
    server = daemon(*ARGUMENTS, "2", is_plain=True)
    first, second = client(server), client(server)
    client_id = expect_success(first.ask([HANDSHAKE]), 1)[0]["clientId"]
    assert client_id == f"{drawn(SEED, 0)}{1:016x}", "not the first client id of the seed"
    session = {"clientId": client_id}
    subscribe(first, CHANNEL, session)
    send_connect(first, session)
    publish(second, CHANNEL, 7, session)
    expect_events(first.response().items(), [{"channel": CHANNEL, "data": 7}])
    assert expect_status(second, get(b"?jsonp=called&message=[]"), 200) == b"called([])"
    expect_error(second.ask([{"channel": CHANNEL, "data": 8}]), "401::No client id")
    for it in (first, second):
        it.socket.close()
    server.expect_end()


def test_connect_gets_five_events_of_a_megabyte(daemon, client):
    connection = client(daemon())
    session, data = open_session(connection), [str(number) * 1_000_000 for number in range(5)]
    subscribe(connection, "/large", session)
    for it in data:
        publish(connection, "/large", it, session)
    items = connection.ask([{**CONNECT, **session}])
    assert [it.get("data") for it in items] == [*data, None]


def test_hundred_held_connects_of_a_shard_get_one_event(daemon, client, ticks):
    """No connect may wait for a timer or a tick, which do not happen here. Megabytes of standard input mean nothing."""
    server = daemon("--shards", "1", env=ticks.env)
    publisher = client(server)
    server.process.stdin.write(b"not the end\n" * ((16 << 20) // 12))
    server.process.stdin.flush()
    session = open_session(publisher)
    held = [hold_connect(server.address, "/many") for _ in range(100)]
    server.expect({CONNECTS_HELD: len(held)}, pause=ticks.tick)
    publish(publisher, "/many", 1, session)
    for connection in held:
        expect_events(connection.response().items(), [{"channel": "/many", "data": 1}])
        connection.socket.close()
    server.expect({FILED: 0}, pause=ticks.tick)


def test_session_is_the_same_at_both_listeners(daemon, client):
    server = daemon("--readers", "127.0.0.1:0")
    main, readers, publisher = client(server), client(server.readers), client(server)
    for own, other in ((main, readers), (readers, main)):
        session, others = open_session(own), open_session(other)
        subscribe(other, "/doors", session)
        send_connect(other, session)
        server.expect({REQUESTS_HELD: 1})
        publish(publisher, "/doors", 1, others)
        expect_events(other.response().items(), [{"channel": "/doors", "data": 1}])
        send_connect(other, session)
        server.expect({REQUESTS_HELD: 1})
        expect_success(own.ask([{"channel": "/meta/disconnect", **session}]), 1)
        expect_success(other.response().items(), 1)
        expect_error(other.ask([{**CONNECT, **session}]), "402::Unknown client")
    # Each of the two opened two sessions, and ended one.
    server.expect({("bayeux_sessions_opened_total", ""): 4, SESSIONS: 2})


def test_next_client_is_served_after_thousands_of_sessions(daemon, client, is_short):
    server = daemon("--shards", "1")
    connection = client(server)
    for _ in range(0, 1000 if is_short else 20_000, AT_ONCE):
        close_all(connection, open_many(connection, AT_ONCE))
    check_serves(server.address, "/right")


def work_seconds(server, connection, session, count):
    """Returns the processor times for a list of sessions, a full request, and some new sessions, `count` times each, in seconds."""

    def replace():
        for _ in range(20):
            close_all(connection, [open_session(connection)])

    request, spent = [{"channel": "/nobody", "data": 0, **session}] * MOST_MESSAGES, []
    connection.renew()
    for act in (lambda: read_list(server.metrics, b"/sessions"), lambda: connection.ask(request), replace):
        before = server.run_seconds()
        for _ in range(count):
            act()
        spent.append(server.run_seconds() - before)
    return spent


@pytest.mark.proved
@pytest.mark.alone
@pytest.mark.timeout(900)
def test_work_of_the_most_sessions_costs_no_more_than_with_a_thousand(daemon, client):
    """It may take twice as much processor time. Other processes can only make it slower, so the least of several times counts.

    Then the last session is opened and gets an event, and no further one can be opened.
    """
    counts = MOST, MOST_LISTED
    servers = [daemon("--sessions", str(it)) for it in counts]
    connections = [client(it) for it in servers]
    sessions = [open_session(it) for it in connections]
    for connection, count in zip(connections, counts):
        open_many(connection, count - 2)
    times = [[work_seconds(*it, count=40) for it in zip(servers, connections, sessions)] for _ in range(5)]
    many, few = ([min(them) for them in zip(*its)] for its in zip(*times))
    assert all(found <= 2 * least for found, least in zip(many, few)), f"{many} seconds, and {few} with a thousand"
    server, connection = servers[0], connections[0]
    connection.renew()
    session = open_session(connection)
    subscribe(connection, "/most", session)
    expect_error(connection.ask([HANDSHAKE]), "503::Too many sessions")
    server.expect({SESSIONS: MOST})
    assert read_list(server.metrics, b"/channels") == [{"pattern": "/most", "subscriptions": 1}]
    publish(connection, "/most", 1, session)
    expect_events(poll(connection, session), [{"channel": "/most", "data": 1}])


# The ways to send a handshake, and the texts around the JSON in the response.
WAYS = [(post, b"", b""), (by_callback, b"called(", b")"), (by_form, b"", b"")]


@pytest.mark.parametrize("order", ["main", "readers", "main readers", "readers main", "readers readers", "readers main readers main"])
def test_listeners_share_nonces_and_the_limit_of_connections(daemon, client, tmp_path, order):
    """Client ids are those that ChaCha20 gives for the seed."""
    (tmp_path / "seed").write_text(f"{SEED.upper()}\n", encoding="ascii")
    order = order.split()
    server = daemon("--connections", str(len(order)), "--readers", "localhost:0", "--seed-file", str(tmp_path / "seed"))
    connections = [client(server.readers if it == "readers" else server) for it in order]
    for place, (connection, (request, before, after)) in enumerate(zip(connections, itertools.cycle(WAYS))):
        body = expect_status(connection, request(json.dumps([HANDSHAKE]).encode()), 200)
        assert body.startswith(before) and body.endswith(after)
        (reply,) = expect_success(json.loads(body.removeprefix(before).removesuffix(after)), 1)
        assert reply["clientId"] == f"{drawn(SEED, place)}{place + 1:016x}"
    for it in connections:
        it.socket.close()
    server.expect_end()


def test_daemons_without_a_seed_draw_different_ids(daemon, client):
    first, second = (open_session(client(daemon())) for _ in range(2))
    assert first != second
