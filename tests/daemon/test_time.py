"""What a daemon does as time passes: ticks, answers that nobody takes, ages, holds, and expiry."""
import itertools
import time

from base import wait_until
from daemon import expect_error, expect_success, open_session, publish, send_connect, subscribe
from metrics import CONNECTS_HELD, FILED, OPEN, REQUESTS_HELD, SESSIONS, SWEPT, TICKED, UPTIME, read_list

CHANNEL = "/time"
# The number of sessions and of shards.
LIVE, SHARDS = 17, 16
# After how many ticks an answer that nobody takes is dropped: a second if there are more than live sessions, otherwise a minute.
CROWDED, KEPT = 10, 600


def leave_answers(server, client, sessions, ticks):
    """Leaves an answer that nobody takes for each of `sessions`, and returns the number of ticks before these.

    Their connects are held, their connections close, and then an event answers the connects.
    """
    server.expect({OPEN: 0}, pause=ticks.tick)
    connections = [client(server) for _ in sessions]
    for it in zip(connections, sessions):
        send_connect(*it)
    server.expect({REQUESTS_HELD: len(sessions), CONNECTS_HELD: len(sessions)}, pause=ticks.tick)
    for connection in connections:
        connection.socket.close()
    before = server.expect({OPEN: 0, REQUESTS_HELD: 0, CONNECTS_HELD: len(sessions)}, pause=ticks.tick)[TICKED]
    with client(server) as connection:
        publish(connection, "/all", 1, sessions[0])
    server.expect({CONNECTS_HELD: 0}, pause=ticks.tick)
    return before


def open_subscribed(server, client, count):
    """Opens `count` sessions that are subscribed to /all."""
    with client(server) as connection:
        sessions = [open_session(connection) for _ in range(count)]
        for session in sessions:
            subscribe(connection, "/all", session)
    return sessions


def test_older_ones_of_too_many_answers_are_dropped_within_a_second(daemon, client, ticks):
    """In each of 16 shards. No newer answer is dropped. As many answers as sessions are not too many."""
    server = daemon("--shards", str(SHARDS), env=ticks.env)
    sessions = open_subscribed(server, client, LIVE)
    # If there are too many answers, the daemon keeps each for fewer ticks than this.
    ticks.tick(15)
    leave_answers(server, client, sessions, ticks)
    server.expect({FILED: LIVE}, pause=ticks.tick)
    for turn in range(1, 4):
        # The answers of the turn before are as old as those that are dropped may be.
        ticks.tick(5)
        began = leave_answers(server, client, sessions, ticks)
        dropped = server.expect({FILED: LIVE, SWEPT: turn * LIVE}, pause=ticks.tick)[TICKED]
        assert dropped - began <= CROWDED + 5
        ticks.tick(5)
        assert server.scrape()[FILED] == LIVE, "a newer answer was dropped"
    ticks.tick(15)
    assert server.scrape()[FILED] == LIVE, "as many answers as sessions"


def test_answer_that_nobody_takes_is_kept_for_a_minute(daemon, client, ticks):
    """Then it is dropped, with the next tick. The uptime and the age of the session are those of the clock."""
    server = daemon("--shards", "1", env=ticks.env)
    (session,) = open_subscribed(server, client, 1)
    begun = ticks.seconds
    leave_answers(server, client, [session], ticks)
    first = server.expect({FILED: 1}, pause=ticks.tick)[TICKED]
    ticks.tick(KEPT - 10)
    assert server.scrape()[FILED] == 1, "dropped too early"
    assert server.expect({FILED: 0, SWEPT: 1}, pause=ticks.tick)[TICKED] <= first + KEPT + 2
    assert server.scrape()[UPTIME] == int(ticks.seconds)
    (listed,) = read_list(server.metrics, b"/sessions")
    assert int(ticks.seconds - begun) - 1 <= listed["age_seconds"] <= ticks.seconds
    # The daemon is no longer new. Now the older one of two answers is one too many.
    for _ in range(2):
        began = leave_answers(server, client, [session], ticks)
    assert server.expect({FILED: 1, SWEPT: 2}, pause=ticks.tick)[TICKED] - began <= CROWDED + 5
    ticks.tick(5)
    assert server.scrape()[FILED] == 1


def test_connect_is_held_for_the_timeout(daemon, client, ticks):
    server = daemon("--timeout", "2000ms", env=ticks.env)
    connection = client(server)
    session = open_session(connection)
    send_connect(connection, session)
    server.expect({CONNECTS_HELD: 1}, pause=ticks.tick)
    ticks.add(1.5)
    ticks.tick(2)
    assert server.scrape()[CONNECTS_HELD] == 1
    ticks.tick(8)
    assert server.scrape()[CONNECTS_HELD] == 0
    expect_success(connection.response().items(), 1)


def test_silent_session_expires_after_the_interval(daemon, client, ticks):
    """A rejected message does not keep it alive. An accepted one does."""
    server = daemon("--max-interval", "6s", env=ticks.env)
    connection = client(server)
    session = open_session(connection)
    ticks.tick(50)
    expect_success(connection.ask([{"channel": CHANNEL, "data": 1, **session}]), 1)
    ticks.tick(50)
    assert connection.ask([{"channel": "no", "data": 1, **session}])[0]["error"].startswith("400::")
    ticks.tick(8)
    assert server.scrape()[SESSIONS] == 1
    ticks.tick(5)
    assert server.scrape()[SESSIONS] == 0
    expect_error(connection.ask([{"channel": CHANNEL, "data": 1, **session}]), "402::Unknown client")


def test_ticks_are_a_tenth_of_a_second_apart(daemon, tmp_path):
    """In real time. A busy machine has longer pauses, but not only those."""
    record = tmp_path / "record"
    server = daemon("--record", str(record))

    def moments():
        """Returns the moments of the ticks so far, which are all complete lines of the record, in milliseconds."""
        return [int(it.removesuffix(b" T")) for it in record.read_bytes().split(b"\n")[1:-1]]

    def pauses():
        return [later - earlier for earlier, later in itertools.pairwise(moments())]

    wait_until("twenty ticks, two of them a tenth of a second apart", lambda: len(pauses()) >= 20 and min(pauses()) < 115)
    begun, page = time.monotonic(), server.scrape()
    server.close()
    more = 10 * (time.monotonic() - begun) + 1
    assert min(pauses()) >= 100
    assert page[TICKED] <= len(pauses()) + 1 <= page[TICKED] + more
    assert 1 <= page[UPTIME] <= moments()[-1] // 1000
