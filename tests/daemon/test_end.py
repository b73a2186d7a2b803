"""The end of a daemon: at the end of standard input, and after the last of its connections."""
import itertools

import pytest

from base import readable, wait_until
from daemon import Connection, ConnectionEnded, expect_events, expect_status, expect_success, get, open_session, post, publish, send_connect
from daemon import subscribe
from documented import expect_documented
from metrics import CONNECTS_HELD, OPEN, REFUSED_TICKS, REQUESTS_HELD, ask_for, read_list
from runs import ANYWHERE, run

# The number of shards, and the numbers of the sessions with a held connect. Sessions are assigned to shards in turn.
SHARDS, HOLDING = 64, range(0, 64, 9)
UNANSWERED = "the answer is unavailable"
# How long the daemon serves open connections after the end of standard input, in seconds.
LEAVE = 1.0


def end_second(server, clock):
    """Lets the second pass in which the daemon serves open connections, and checks its end."""
    # The second has begun.
    server.wait_for_rest()
    clock.add(LEAVE + 0.05)
    server.expect_end()


def is_served(address):
    """Returns whether a request at `address` gets any bytes as a response."""
    try:
        with Connection(address) as connection:
            connection.send(post(b"[]"))
            return connection.receive()
    except (ConnectionEnded, OSError):
        return False


def hold_connects(client, publisher, *listeners):
    """Opens `SHARDS` sessions, and sends connects of those in `HOLDING` to each of `listeners` in turn. Returns their connections and sessions."""
    sessions = [open_session(publisher) for _ in range(SHARDS)]
    held = [(client(listener), sessions[it]) for it, listener in zip(HOLDING, itertools.cycle(listeners))]
    for it in held:
        send_connect(*it)
    return held


def test_held_connects_get_503_and_no_connection_is_accepted(daemon, client, clock):
    """In many shards, and at both listeners. The last one has got its event before."""
    server = daemon("--shards", str(SHARDS), "--readers", "127.0.0.1:0", env=clock.env)
    with client(server) as publisher:
        held = hold_connects(client, publisher, server.readers, server.address)
        values = server.expect({REQUESTS_HELD: len(held)})
        assert sum(name == "bayeux_shard_lag_entries" for name, _ in values) == SHARDS
        last, session = held.pop()
        subscribe(publisher, "/last", session)
        publish(publisher, "/last", 1, session)
        expect_events(last.response().items(), [{"channel": "/last", "data": 1}])
        last.socket.close()
    held = [it for it, _ in held]
    assert not readable(*(it.socket for it in held)), "answered early"
    server.process.stdin.close()
    assert [it.response().status for it in held] == [503] * len(held)
    assert not is_served(server.readers) and not is_served(server.address)
    end_second(server, clock)
    assert sum(it for _, reason, _, it in server.failed_requests() if reason == UNANSWERED) == len(held)
    expect_documented(server.full_log())


def test_window_keeps_no_requests_that_all_shards_have_applied(daemon, client, ticks):
    server = daemon("--shards", str(SHARDS), env=ticks.env)
    publisher = client(server)
    held = hold_connects(client, publisher, server)
    server.expect({CONNECTS_HELD: len(held)}, pause=ticks.tick)
    ticks.tick(2)
    assert server.scrape()["bayeux_window_batches", ""] == 0
    sessions = read_list(server.metrics, b"/sessions")
    assert len({it["number"] for it in sessions}) == SHARDS
    assert sum(it["held"] for it in sessions) == len(held)


def test_open_connection_is_served_for_a_second(daemon, client, clock):
    """Then it gets 503, as do a late body and the health. An idle connection does not delay the end any further."""
    server = daemon(env=clock.env)
    idle, late, connection = (client(server) for _ in range(3))
    for it in (idle, connection):
        expect_status(it, post(b"[]"), 200)
    request = post(b"[     ]")
    late.send(request[:-4])
    late.wait_until_read()
    server.process.stdin.close()
    wait_until("refused ticks", lambda: server.scrape()[REFUSED_TICKS] > 0)
    assert ask_for(server.metrics, get(b"", b"/healthz")).status == 503
    clock.add(LEAVE - 0.1)
    before = server.scrape()[REFUSED_TICKS]
    wait_until("more refused ticks", lambda: server.scrape()[REFUSED_TICKS] > before + 1)
    expect_status(late, request[-4:], 503)
    expect_status(connection, post(b"[]"), 503, "the server is shutting down")
    server.check_alive()
    end_second(server, clock)


@pytest.mark.parametrize("until", [[], ["--until-eof"]], ids=["", "until eof"])
def test_last_connection_may_be_held_for_longer_than_a_second(daemon, client, clock, until):
    server = daemon("--connections", "1", *until, "--timeout", "30s", env=clock.env)
    with client(server) as connection:
        session = open_session(connection)
        send_connect(connection, session)
        server.expect({CONNECTS_HELD: 1})
        for _ in range(29):
            clock.add(1)
        server.expect({CONNECTS_HELD: 1, OPEN: 1})
        before = server.scrape()
        wait_until("ticks", lambda: server.scrape()["bayeux_ticks_total", ""] > before["bayeux_ticks_total", ""] + 1)
        server.expect({CONNECTS_HELD: 1})
        clock.add(1.5)
        expect_success(connection.response().items(), 1)
        expect_success(connection.ask([{"channel": "/meta/disconnect", **session}]), 1)
    server.expect_end()


def test_daemon_ends_if_its_input_cannot_be_read(program):
    """As under nohup."""
    with open("/dev/null", "wb") as unreadable:
        status, _, errors = run(program, [*ANYWHERE, "--until-eof"], stdin=unreadable)
    assert status == 0, errors
