"""No request takes a daemon much more processor time for each byte of it and its response than one of 256 publishes.

Some forty shapes of requests, most of about 100 kB, are tried.
"""
import json
import time
import urllib.parse

import pytest

from daemon import CONNECT, FORM, HANDSHAKE, MOST_MESSAGES, expect_success, get, open_session, post

# The most patterns of a subscription, and of a session. The size of most requests, in bytes. How often a shape is sent at least.
PATTERNS, HELD, SIZE, LEAST = 64, 1024, 100_000, 3
# The shape with which the others are compared, and the shapes that get status 400.
MEASURE = "256 publishes"
REFUSED = {"a number", "brackets", "objects above the limit", "a body that breaks off", "a form of other parameters", "a query of percent signs"}


def as_json(messages):
    """Returns a POST of `messages`."""
    return post(json.dumps(messages).encode())


def subscribed(session, patterns, verb="subscribe"):
    """Returns messages that subscribe to `patterns`, or unsubscribe from them. `verb`: "subscribe" or "unsubscribe"."""
    parts = [patterns[it : it + PATTERNS] for it in range(0, len(patterns), PATTERNS)]
    return [{"channel": f"/meta/{verb}", "subscription": part, **session} for part in parts]


def in_and_back(connection, patterns):
    """Returns a POST that subscribes a new session to `patterns`, and unsubscribes it again."""
    session = open_session(connection)
    return as_json(subscribed(session, patterns) + subscribed(session, patterns, "unsubscribe"))


def batch(connection):
    """Opens an acknowledging session with an unacknowledged batch of 100 kB. Returns the member with its client id."""
    session = open_session(connection, ext={"ack": True})
    expect_success(connection.ask(subscribed(session, ["/costs/batch"])), 1)
    expect_success(connection.ask([{"channel": "/costs/batch", "data": "x" * 10_000, **session} for _ in range(10)]), 10)
    connection.ask([{**CONNECT, "ext": {"ack": 0}, **session}])
    return session


def in_data(session, data):
    """Returns a publish with the JSON text `data` as its data."""
    head = json.dumps({"channel": "/costs/none", **session})[:-1]
    return post(b"[" + head.encode() + b', "data": ' + data.encode() + b"}]")


def repeated_messages(session):
    """Returns the message of each shape with 256 equal messages, by the shape's name."""
    pad, long = {"data": "x" * 250}, {"id": "x" * 200}
    return {
        MEASURE: {"channel": "/costs/none", **pad, **session},
        "256 publishes to a service": {"channel": "/service/none", **pad, **session},
        "256 publishes with an id": {"channel": "/costs/none", "data": 1, **long, **session},
        "256 publishes of 32 segments": {"channel": "/a" * 32, "data": "x" * 180, **session},
        "256 publishes without an id of a client": {"channel": "/costs/none", **pad},
        "256 publishes of an unknown client": {"channel": "/costs/none", **pad, "clientId": "0" * 48},
        "256 publishes to no channel": {"channel": "/costs//none", **pad, **session},
        "256 publishes to all": {"channel": "/**", **pad, **session},
        "256 publishes to an unknown meta channel": {"channel": "/meta/costs", **pad, **session},
        "256 connects": {**CONNECT, **long, **session},
        "256 connects of an unknown type": {**CONNECT, "connectionType": "x" * 200, **session},
        "256 subscriptions to a meta channel": {"channel": "/meta/subscribe", "subscription": "/meta/" + "x" * 200, **session},
        "256 subscriptions without a pattern": {"channel": "/meta/subscribe", **long, **session},
        "256 handshakes": {**HANDSHAKE, **long},
        "256 handshakes of another version": {**HANDSHAKE, "version": "0", **long},
        "256 disconnects of an unknown client": {"channel": "/meta/disconnect", **long, "clientId": "0" * 48},
    }


def shapes_of_patterns(connection):
    """Returns shapes that subscribe and unsubscribe. A session has the largest number of active patterns."""
    session, patterns, others = open_session(connection), [f"/p/{it}" for it in range(HELD)], [f"/q/{it}" for it in range(HELD)]
    expect_success(connection.ask(subscribed(session, patterns)), HELD // PATTERNS)
    one = [{"channel": f"/meta/{verb}", "subscription": "/p/1000", **session} for verb in ("unsubscribe", "subscribe")]
    return {
        "active patterns": as_json(subscribed(session, patterns * 16)),
        "patterns not active, taken back": as_json(subscribed(session, others * 16, "unsubscribe")),
        "patterns taken back and in again": as_json((subscribed(session, patterns, "unsubscribe") + subscribed(session, patterns)) * 8),
        "one pattern a message, taken back and in again": as_json(one * 128),
        "new patterns of 90 bytes, taken back again": in_and_back(connection, [f"/{'x' * 80}/{it}" for it in range(HELD)]),
        "patterns of 32 segments, in and back": in_and_back(connection, [f"/{it}" + "/a" * 31 for it in range(640)]),
        "patterns above the limit": as_json(subscribed(session, [f"/r/{it}" for it in range(16_000)])),
        "a pattern of 100 kB": as_json(subscribed(session, ["/" + "x" * SIZE])),
    }


def shapes_of_texts(session):
    """Returns shapes with one large message, or a large invalid body."""
    return {
        "a text": in_data(session, json.dumps("x" * SIZE)),
        "a text of escapes": in_data(session, '"' + "\\u0041" * 16_000 + '"'),
        "a text of U+2028": in_data(session, json.dumps("\u2028" * 33_000, ensure_ascii=False)),
        "a number": in_data(session, "1" * SIZE),
        "33,000 numbers": in_data(session, json.dumps([1] * 33_000)),
        "8,000 members": in_data(session, json.dumps({str(it): it for it in range(8_000)})),
        "one member again and again": in_data(session, "{" + ",".join(['"a":1'] * 16_000) + "}"),
        "arrays of 120 levels": in_data(session, "[" + ",".join(["[" * 120 + "]" * 120] * 400) + "]"),
        "an id": as_json([{"channel": "/costs/none", "id": "x" * SIZE, "data": 1, **session}]),
        "a channel": as_json([{"channel": "/" + "x" * SIZE, "data": 1, **session}]),
        "a client id": as_json([{"channel": "/costs/none", "data": 1, "clientId": "x" * SIZE}]),
        "types of a handshake": as_json([{**HANDSHAKE, "supportedConnectionTypes": ["x"] * 20_000}]),
        "blanks": post(b"[" + b" " * SIZE + b"]"),
        "brackets": post(b"[" * SIZE),
        "objects above the limit": as_json([{}] * 30_000),
        "a body that breaks off": post(json.dumps([{"channel": "/costs/none", "data": "x" * 250, **session}] * MOST_MESSAGES).encode()[:-1]),
    }


def shapes_of_forms(session):
    """Returns forms and queries."""
    message = {"channel": "/costs/none", "data": "x" * 200, **session}
    whole, one = (urllib.parse.urlencode({"message": json.dumps(it)}) for it in ([message] * MOST_MESSAGES, message))
    return {
        "a form of 256 publishes": post(whole.encode(), FORM),
        "a form of 256 documents": post("&".join([one] * MOST_MESSAGES).encode(), FORM),
        "a form of empty documents": post("&".join(["message=[]"] * 9_000).encode(), FORM),
        "a form of other parameters": post("&".join(["m=1"] * 25_000).encode(), FORM),
        "a query of publishes": get(b"?" + urllib.parse.urlencode({"message": json.dumps([message] * 120), "jsonp": "name"}).encode()),
        "a query of percent signs": get(b"?message=" + b"%20" * 20_000),
    }


def cost(server, connection, name, request, seconds):
    """Returns the processor time for a byte of a shape, which is sent for `seconds` seconds. Checks the statuses."""
    before, count, size, end = server.run_seconds(), 0, 0, time.monotonic() + seconds
    while count < LEAST or time.monotonic() < end:
        connection.send(request)
        response = connection.response()
        assert response.status == (400 if name in REFUSED else 200), name
        size += len(request) + len(response.body)
        count += 1
    return (server.run_seconds() - before) / size


@pytest.mark.alone
@pytest.mark.timeout(900)
@pytest.mark.parametrize("bound, seconds", [(20, 0.2), pytest.param(5, 1.0, marks=pytest.mark.soak)])
def test_costs_of_requests_are_those_of_publishes_of_the_same_size(daemon, client, pytestconfig, request, bound, seconds):
    """At most `bound` times as much, for each shape."""
    if pytestconfig.getoption("--program") != "proved" and not request.node.get_closest_marker("soak"):
        pytest.skip("runs with --program proved, or with -m soak")
    server = daemon("--timeout", "0ms")
    connection = client(server)
    session = open_session(connection)
    shapes = {name: as_json([message] * MOST_MESSAGES) for name, message in repeated_messages(session).items()}
    shapes["connects that repeat a batch"] = as_json([{**CONNECT, "ext": {"ack": 0}, **batch(connection)}] * 250)
    shapes.update({**shapes_of_patterns(connection), **shapes_of_texts(session), **shapes_of_forms(session)})
    costs = {name: cost(server, connection, name, it, seconds) for name, it in shapes.items()}
    ratios = {name: round(it / costs[MEASURE], 2) for name, it in costs.items()}
    print(*sorted(ratios.items(), key=lambda it: -it[1]), sep="\n")
    assert not {name: it for name, it in ratios.items() if it > bound}
