"""The lists of sessions and of channels at the metrics listener."""
import collections
import json
import re
import time

import pytest

from base import wait_until
from daemon import SlowReader, close_all, expect_events, expect_success, get, open_many, open_session, poll, send_connect, subscribe
from metrics import ask_for, read_list
from strace import NO_STRACE, STRACE, can_trace, start_traced

# The sessions of a test, in the order in which they are opened. Two events wait for each of the first two. One of these has got them,
# and has not acknowledged them. It has a pattern that JSON writes with escapes.
QUOTED = '/\u00e4"\\'
SENT = [{"channel": "/chat/x", "data": data} for data in (1, 2)]
SENT_BYTES = sum(len(json.dumps(event, separators=(",", ":"))) for event in SENT)
QUIET = {"acknowledges": False, "held": False, "overflowed": False, "events": 0, "bytes": 0, "outstanding": 0, "batch": 0, "patterns": []}
LISTED = [
    {**QUIET, "acknowledges": True, "events": 2, "bytes": SENT_BYTES, "outstanding": 2, "batch": 1, "patterns": ["/chat/*", QUOTED]},
    {**QUIET, "events": 2, "bytes": SENT_BYTES, "patterns": ["/chat/*"]},
    {**QUIET, "held": True},
    {**QUIET, "overflowed": True},
]
# The greatest number of sessions in their list, and its end if there are more.
MOST_LISTED, TRUNCATED = 1000, {"truncated": True}
# The patterns of a session, the length of a long pattern, and the number of sessions with as many long patterns that a list can have.
PATTERNS, LONG, LONG_LISTED = 1024, 250, 5
# How long a list is that is cut because of its length, in bytes: about a megabyte.
CUT_BYTES = range(1_000_000, 1_100_000)


def number_of(session):
    """Returns the number of a session. `session`: the member with its client id, which ends with the number in hexadecimal."""
    return int(session["clientId"][-16:], 16)


def sessions_of(server):
    """Returns the list of sessions of `server`."""
    return read_list(server.metrics, b"/sessions")


def test_lists_show_what_clients_did_and_no_client_ids(daemon, client):
    start = time.monotonic()
    server = daemon("--shards", "2", "--limit", "2")
    connection = client(server)
    sessions = [open_session(connection, ext={"ack": True}), *(open_session(connection) for _ in LISTED[1:])]
    for pattern, session in (("/chat/*", 0), (QUOTED, 0), ("/chat/*", 1), ("/many", 3)):
        subscribe(connection, pattern, sessions[session])
    expect_success(connection.ask([{**event, **sessions[2]} for event in SENT]), 2)
    expect_events(poll(connection, sessions[0]), SENT)
    expect_success(connection.ask([{"channel": "/many", "data": data, **sessions[2]} for data in (1, 2, 3)]), 3)
    send_connect(client(server), sessions[2])
    wait_until("a session holds a connect", lambda: any(it["held"] for it in sessions_of(server)))
    text = ask_for(server.metrics, get(b"", b"/sessions")).body.decode()
    assert text.isascii() and not [it for it in sessions if it["clientId"] in text]
    found = sorted(sessions_of(server), key=lambda it: it["number"])
    assert all(0 <= it.pop("age_seconds") <= time.monotonic() - start for it in found)
    assert [it.pop("number") for it in found] == [number_of(it) for it in sessions]
    assert found == LISTED
    channels = [{"pattern": "/chat/*", "subscriptions": 2}, {"pattern": QUOTED, "subscriptions": 1}]
    assert read_list(server.metrics, b"/channels") == channels
    assert ask_for(server.metrics, get(b"", b"/channels")).body.isascii()


def test_lists_have_the_sessions_of_all_shards(daemon, client):
    server = daemon("--shards", "64")
    connection = client(server)
    sessions = open_many(connection, 2 * 64)
    for at, it in enumerate(sessions):
        subscribe(connection, ["/all", f"/{at:03}"], it)
    assert sorted(it["number"] for it in sessions_of(server)) == sorted(map(number_of, sessions))
    wanted = [{"pattern": f"/{at:03}", "subscriptions": 1} for at in range(len(sessions))]
    assert read_list(server.metrics, b"/channels") == [*wanted, {"pattern": "/all", "subscriptions": len(sessions)}]


@pytest.mark.parametrize("shards", ["1", "3"])
def test_list_of_sessions_has_at_most_a_thousand(daemon, client, shards):
    server = daemon("--shards", shards)
    connection = client(server)
    sessions = open_many(connection, MOST_LISTED)
    found = sessions_of(server)
    assert len(found) == MOST_LISTED and TRUNCATED not in found
    sessions += open_many(connection, 1)
    found = sessions_of(server)
    assert len(found) == MOST_LISTED + 1 and found[-1] == TRUNCATED
    # The shards are visited in turn.
    counts = collections.Counter(it["number"] % int(shards) for it in found[:-1]).values()
    assert max(counts) - min(counts) <= 1
    close_all(connection, sessions)


def make_long_lists(connection):
    """Opens sessions whose patterns are longer than a list may be."""
    for number, session in enumerate(open_many(connection, LONG_LISTED + 1)):
        patterns = [pattern(number, at) for at in range(PATTERNS)]
        some = [{"channel": "/meta/subscribe", "subscription": patterns[at : at + 64], **session} for at in range(0, PATTERNS, 64)]
        expect_success(connection.ask(some), len(some))


def pattern(number, at):
    """Returns the pattern `at` of session `number`."""
    return f"/{number}/{at:04}/{'x' * (LONG - 8)}"


def test_lists_end_after_a_megabyte(daemon, client):
    server = daemon("--shards", "1")
    make_long_lists(client(server))
    found = sessions_of(server)
    assert len(found) == LONG_LISTED + 1 and found[-1] == TRUNCATED
    *found, last = read_list(server.metrics, b"/channels")
    assert last == TRUNCATED
    assert [it["pattern"] for it in found[:PATTERNS]] == [pattern(0, at) for at in range(PATTERNS)]
    assert sum(len(json.dumps(it, separators=(",", ":"))) + 1 for it in found) in CUT_BYTES


def test_client_that_reads_no_list_keeps_no_other_one_waiting(daemon, client, tmp_path):
    """The system lets the metrics listener wait two seconds for each client."""
    if not can_trace():
        pytest.skip(NO_STRACE)
    trace = tmp_path / "trace"
    server = start_traced(daemon, [*STRACE, "-o", str(trace), "-e", "trace=setsockopt"], "--shards", "1")
    make_long_lists(client(server))
    stuck = client(server.metrics, 4096, 536, kind=SlowReader)
    stuck.send(get(b"", b"/sessions"))
    stuck.receive()
    server.scrape()
    set_times = re.findall(r'SO_SNDTIMEO\w*, "([^"]*)"', trace.read_text(encoding="ascii"))
    assert set_times and {*set_times} == {r"\2" + r"\0" * 15}
