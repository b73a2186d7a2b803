"""The metrics listener: its requests and clients, and that the metrics count what clients saw and nothing else."""
import collections
import contextlib
import json
import re
import resource
import shutil
import socket
import struct
import subprocess
import time

import pytest

from base import wait_until
from daemon import CONNECT, FORM, HANDSHAKE, MORE_MESSAGES, MOST_MESSAGES, Connection, ConnectionEnded, by_callback, by_form, expect_error
from daemon import expect_status, expect_success, get, open_many, open_session, post, post_coded, send_connect, subscribe
from documented import documented_errors, documented_reasons, expect_documented
from metrics import CONNECTS_HELD, FILED, OPEN, OPENED, REFUSED_TICKS, REQUESTS_HELD, SESSIONS, TICKED, ask_for, read_page
from metrics import wait_for_metrics
from strace import NO_STRACE, STRACE, can_trace, start_traced

CHANNEL = "/watched"

# A page of another site whose name leads to the server could read these paths, but for the host name in its requests.
HOST_PATHS, OTHER_HOSTS = (b"/", b"/sessions", b"/channels"), (b"evil.example", b" 127.0.0.1.example:80", b"")
OWN_HOSTS = b"127.0.0.1:9090", b"[::1]:80", b"192.0.2.1", b"localhost:1"


@pytest.mark.parametrize(
    "request_, status",
    [
        (get(b"", b"/sessions/"), 404),
        (post(b"[]", path=b"/sessions"), 405),
        (get(b"?a", b"/"), 404),
        (get(b"", b"/status.html"), 404),
        (post(b"[]", path=b"/"), 405),
        (get(b"?message=[]"), 404),
        (post(b"[]", path=b"/metrics"), 405),
        (b"GET /healthz HTTP/1.0\r\n\r\n", 200),
        # With a field as long as the cookies of a browser.
        (b"GET /metrics HTTP/1.1\r\nhost: h\r\naccept: %s\r\n\r\n" % (b"a" * 4000), 200),
        (b"GET /healthzx HTTP/1.1\r\n\r\n", 404),
        (b"\r\n\r\n", 405),
        *((b"GET %s HTTP/1.1\r\nHOST:%s\r\n\r\n" % (path, host), 421) for path in HOST_PATHS for host in OTHER_HOSTS),
        *((b"GET %s HTTP/1.1\r\nhost: %s\r\n\r\n" % (path, host), 200) for path in HOST_PATHS for host in OWN_HOSTS),
        (b"GET /metrics HTTP/1.1\r\nhost: metrics.example:9090\r\n\r\n", 200),
    ],
    ids=lambda it: it.partition(b" HTTP")[0].decode().strip() if isinstance(it, bytes) else f"{it}",
)
def test_metrics_listener_serves_its_paths_only(daemon, request_, status):
    assert ask_for(daemon().metrics, request_).status == status


def test_status_page_is_at_the_root(daemon):
    page = ask_for(daemon().metrics, get(b"", b"/"))
    assert (page.status, page.fields[b"content-type"]) == (200, b"text/html; charset=utf-8")
    assert (page.fields[b"x-content-type-options"], page.fields[b"x-frame-options"]) == (b"nosniff", b"DENY")
    assert b"<title>bayeuxd</title>" in page.body and b"fetch('metrics'" in page.body


def test_promtool_accepts_the_metrics(daemon, client):
    """Also those about requests and errors."""
    if not shutil.which("promtool"):
        pytest.skip("there is no promtool")
    server = daemon("--shards", "2")
    expect_error(client(server).ask([{"channel": CHANNEL, "data": 0, "clientId": "none"}]), "402::Unknown client")
    page = ask_for(server.metrics, get(b"", b"/metrics")).body
    result = subprocess.run(["promtool", "check", "metrics"], input=page, capture_output=True, check=False)
    assert result.returncode == 0, result.stderr


# The parts of a request: single bytes, and then lines.
PARTS = [*(bytes([it]) for it in b"GET /healthz"), b" HTTP/1.1\r\n", b"host: h\r\n", b"\r\n"]


@pytest.mark.parametrize("pause, statuses", [(1.7, [200]), (2.1, [])])
def test_request_for_metrics_may_take_two_seconds(daemon, client, clock, pause, statuses):
    """Whenever its parts arrive. Then the next client is served."""
    server = daemon(env=clock.env)
    connection = client(server.metrics)
    with contextlib.suppress(ConnectionEnded):
        for at, part in enumerate(PARTS):
            connection.send(part)
            connection.wait_until_read()
            # The daemon looks at the clock before it reads the next part.
            clock.add(pause / 2 if at in (0, len(PARTS) - 3) else 0)
    assert [it.status for it in connection.read_to_end()] == statuses
    server.scrape()


def test_each_silent_client_halves_the_patience_with_the_next_one(daemon, client, tmp_path):
    """The system lets the metrics listener wait for the first byte."""
    if not can_trace():
        pytest.skip(NO_STRACE)
    trace = tmp_path / "trace"
    server = start_traced(daemon, [*STRACE, "-o", str(trace), "-e", "trace=setsockopt"])
    silent = [client(server.metrics) for _ in range(6)]
    assert ask_for(server.metrics, get(b"", b"/healthz")).status == 200
    ask_for(server.metrics, get(b"", b"/healthz"))
    for it in silent:
        it.socket.close()
    shown = re.findall(r'SO_RCVTIMEO\w*, "((?:[^"\\]|\\.)*)"', trace.read_text(encoding="ascii"))
    times = [struct.unpack("@ll", it.encode().decode("unicode_escape").encode("latin-1")) for it in shown]
    assert times[:6] == [(2, 0), (1, 0), (0, 500_000), (0, 250_000), (0, 125_000), (0, 125_000)]


def test_metrics_show_what_two_clients_do(daemon, client):
    server = daemon("--shards=2")
    first, second = client(server), client(server)
    session = open_session(first)
    subscribe(first, CHANNEL, session)
    send_connect(first, session)
    server.expect({REQUESTS_HELD: 1, ("bayeux_requests", ""): 1, OPEN: 2, SESSIONS: 1, CONNECTS_HELD: 1, FILED: 0})
    expect_success(second.ask([{"channel": CHANNEL, "data": data, **session} for data in (1, 2)]), 2)
    events = len(first.response().items()) - 1
    calm = dict.fromkeys([("bayeux_requests", ""), REQUESTS_HELD, CONNECTS_HELD, FILED, *LAGS], 0)
    before = server.expect({**calm, OPEN: 2, SESSIONS: 1, ("bayeux_events_total", ""): events})
    growing = TICKED, ("bayeux_list_entries_total", "")
    wait_until(f"{growing} grow", lambda: all(server.scrape()[it] > before[it] for it in growing))


def test_processing_time_is_that_of_requests(daemon, client):
    """A publish takes at least a tenth of a microsecond on any machine, and no longer than its client waits."""
    server = daemon()
    connection, spent = client(server), ("bayeux_processing_seconds_sum", "")
    session = open_session(connection)
    before = server.scrape()
    begun = time.monotonic()
    for _ in range(10):
        expect_success(connection.ask([{"channel": CHANNEL, "data": data, **session} for data in range(MOST_MESSAGES)]), MOST_MESSAGES)
    took = time.monotonic() - begun
    after = server.expect({("bayeux_processing_seconds_count", ""): before["bayeux_processing_seconds_count", ""] + 10})
    assert 10 * MOST_MESSAGES * 0.1e-6 <= after[spent] - before[spent] <= took


# The channel to which clients of both listeners may publish, and another one.
BOTH, OTHER = "/counted/a", "/other"
# Metrics that change without a request, and those of what a request takes.
CHANGING = re.compile(r"process_|bayeux_(uptime|ticks|list_entries|window|processing_seconds_(sum|bucket))")
# The reasons of requests that were judged, so that the time for this counts.
CLOSED, UNANSWERED = "the server is shutting down", "the answer is unavailable"
JUDGED = (
    "the messages are not JSON",
    "a message is not a JSON object",
    "a message has no channel",
    "too many messages in one request",
    MORE_MESSAGES,
    "the listener is read-only",
    CLOSED,
)
MANY = MOST_MESSAGES - 1
LIMITS = ["--sessions", "3", "--limit", "300", "--body", "60000", f"--messages={MANY}"]
REFUSED = "bayeux_requests_refused_total"
KINDS = ("handshake", "connect", "subscribe", "unsubscribe", "disconnect")
# The documented reasons that no client can cause here: those of --no-callback-polling, and one of a server that has run for ages.
RARE = ("callback-polling is off", "the content type is not application/json", "the clock is out of range")


def messages_of(session):
    """Returns lists of messages, each for one request. `session`: the member of a session with its client id."""
    connect, publish = {**CONNECT, **session}, {"channel": BOTH, "data": 1, **session}
    subscribe_, websocket = {"channel": "/meta/subscribe", **session}, {**HANDSHAKE, "supportedConnectionTypes": ["websocket"]}
    return [
        [],
        [HANDSHAKE],
        [HANDSHAKE, HANDSHAKE],
        [HANDSHAKE],
        [{**HANDSHAKE, "version": "2.0"}, websocket],
        [websocket],
        [{"channel": "/meta/none", **session}],
        [CONNECT],
        [{**CONNECT, "clientId": "none"}],
        [{**connect, "connectionType": "websocket"}],
        *([{**subscribe_, "subscription": it}] for it in ("/counted/*", "/a/", [f"/{number}" for number in range(65)], "/meta/*")),
        [subscribe_],
        [{**subscribe_, "channel": "/meta/unsubscribe", "subscription": "/none"}],
        [{"channel": BOTH, **session}],
        *([{**publish, "channel": it}] for it in ("/counted//", OTHER, "/service/a")),
        [publish] * MANY,
        [{**connect, "advice": {"timeout": 0}}],
    ]


# Requests without an effect, and the status and the reason that they get at each listener.
ANSWERED = [
    (post(b'[{"channel":"/service/*"}]'), 200, None),
    (by_form(b"[]", b'{"channel":"/meta/none"}'), 200, None),
    (by_callback(b'[{"channel":"/service/a"}]'), 200, None),
    (post(b"["), 400, "the messages are not JSON"),
    (post(b'[{"channel":"/other"},1]'), 400, "a message is not a JSON object"),
    (post(b'[{"channel":"/other"},{}]'), 400, "a message has no channel"),
    (post(json.dumps([{"channel": OTHER}] * (MOST_MESSAGES + 1)).encode()), 400, "too many messages in one request"),
    (post(json.dumps([{"channel": "/service/a"}] * MOST_MESSAGES).encode()), 400, MORE_MESSAGES),
    (by_callback(b"[]", b"jsonp=a(&"), 400, "the name of the callback is not valid"),
    (post(b"other=[]", FORM), 400, "the parameter message is missing"),
    (post(b"[]")[:-1], 400, "the body ended early"),
    (post(b"[]", path=b"/cometdx"), 404, "Bayeux is at /cometd"),
    (post(b"[]").replace(b"POST", b"PUT", 1), 405, "the method is neither GET nor POST"),
    (post(b" " * 60_001), 413, "the request is too large"),
    (post_coded([b" gzip, chunked"]), 501, "the transfer coding is not chunked"),
]


def cases_of(session):
    """Yields lists of requests, each sent over its own connection. The requests before the last one are held."""

    def of(*messages):
        return post(json.dumps(messages).encode())

    connect, publish = {**CONNECT, **session}, {"channel": BOTH, "data": 1, **session}
    ready = {**connect, "advice": {"timeout": 0}}
    yield from ([of(*it)] for it in messages_of(session))
    yield from ([request] for request, _, _ in ANSWERED)
    yield from ([by_callback(json.dumps(it).encode())] for it in ([publish, publish], [ready]))
    yield [of(connect), of(ready)]
    for messages in ([publish] * MANY, [publish] * MANY, [ready], [{"channel": "/meta/disconnect", **session}]):
        yield [of(*messages)]


def serve(server, address, requests):
    """Sends `requests` to `address`, each over a connection of its own. Returns the responses.

    Each but the last one is held until the next one is sent. A request that ends early is followed by the end of its connection.
    """
    with contextlib.ExitStack() as stack:
        connections = []
        for request in requests:
            if connections:
                server.expect({CONNECTS_HELD: len(connections)})
            connections.append(stack.enter_context(Connection(address)))
            connections[-1].send(request)
            if request.endswith(b"\r\n\r\n["):
                connections[-1].socket.shutdown(socket.SHUT_WR)
        return [it.response() for it in connections]


def count_response(response):
    """Returns the changes of metrics that belong to `response`, by name and labels, and the errors and reasons in it."""
    changes, texts = collections.Counter({("bayeux_responses_total", f'{{status="{response.status}"}}'): 1}), set()
    if response.status != 200:
        reason = response.fields[b"bayeux-error"].decode()
        changes[REFUSED, f'{{status="{response.status}",reason="{reason}"}}'] += 1
        changes["bayeux_processing_seconds_count", ""] += reason in JUDGED
        return changes, {reason}
    changes.update([("bayeux_requests_admitted_total", ""), ("bayeux_processing_seconds_count", "")])
    script = re.search(rb"\((\[.*\])\)", response.body)
    for item in json.loads(script[1] if script else response.body):
        kind = item["channel"].removeprefix("/meta/")
        if "successful" not in item:
            changes["bayeux_events_total", ""] += 1
        elif not item["successful"]:
            changes["bayeux_errors_total", f'{{error="{item["error"]}"}}'] += 1
            texts.add(item["error"])
        else:
            changes["bayeux_replies_total", f'{{kind="{kind if kind in KINDS else "publish"}"}}'] += 1
            changes[SESSIONS] += (kind == "handshake") - (kind == "disconnect")
            changes["bayeux_sessions_opened_total", ""] += kind == "handshake"
    return changes, texts


def expect_changes(server, before, changes, what):
    """Waits until the metrics have changed from `before` by `changes` and in no other way. Returns them. `what`: why they change."""
    wanted = {name: value for name, value in changes.items() if value}

    def fault_of(values):
        changed = [name for name, value in values.items() if value != before[name] and not CHANGING.match(name[0])]
        found = {name: values[name] - before[name] for name in changed}
        return "" if found == wanted else f"the metrics changed by {found} in place of {wanted} because of {what[:300]!r}"

    return wait_for_metrics(server.metrics, fault_of)


@pytest.mark.parametrize("listener", ["main", "read-only"])
def test_each_response_changes_the_metrics_as_it_says(daemon, client, listener):
    """The requests cause each documented error and each documented reason. The log counts the same reasons at the same listener."""
    server = daemon(*LIMITS, "--readers", "127.0.0.1:0", "--readers-publish", "/counted/**")
    address = server.address if listener == "main" else server.readers
    with client(address) as connection:
        session = open_session(connection)
    before, texts, wanted = server.expect({OPEN: 0, SESSIONS: 1}), set(), {request: its for request, *its in ANSWERED}
    for requests in cases_of(session):
        changes = collections.Counter({OPENED: len(requests)})
        for request, it in zip(requests, serve(server, address, requests)):
            reason = it.fields.get(b"bayeux-error", b"").decode() or None
            assert [it.status, reason] == wanted.get(request, [it.status, reason]), request[:300]
            more, found = count_response(it)
            changes.update(more)
            texts |= found
        before = expect_changes(server, before, changes, b" and ".join(requests))
    assert before[REFUSED_TICKS] == 0
    # A client of the listener for readers cannot reach the first one, and one of the main listener not the second one.
    missing = {"400::Invalid channel"} if listener == "read-only" else {"the listener is read-only"}
    assert (documented_reasons() | documented_errors()) - {*RARE} - texts == missing
    values = server.scrape()
    server.close()
    logged = collections.Counter()
    for _, reason, name, count in server.failed_requests():
        logged[name, reason] += count
    wanted = {
        (listener, re.search('reason="(.*)"', labels)[1]): value for (name, labels), value in values.items() if name == REFUSED and value
    }
    assert logged == wanted
    expect_documented(server.full_log())


def test_metrics_and_log_count_what_is_refused_after_the_end_of_input(daemon, client, ticks):
    """The daemon still serves two connections, one of which held a connect. No tick is admitted."""
    server = daemon("--connections", "3", "--until-eof", env=ticks.env)
    connection, holder = client(server), client(server)
    send_connect(holder, open_session(connection))
    before = server.expect({CONNECTS_HELD: 1}, pause=ticks.tick)
    server.process.stdin.close()
    assert holder.response().status == 503
    expect_status(connection, post(b"[]"), 503, CLOSED)
    refused = {(REFUSED, f'{{status="503",reason="{reason}"}}'): 1 for reason in (CLOSED, UNANSWERED)}
    # The held connects are those of the last tick.
    gone = {("bayeux_requests", ""): -1, REQUESTS_HELD: -1}
    more = {("bayeux_responses_total", '{status="503"}'): 2, ("bayeux_processing_seconds_count", ""): 1}
    after = expect_changes(server, before, {**refused, **gone, **more}, b"[]")
    ticks.tick(5)
    values = server.scrape()
    assert (values[TICKED], values[REFUSED_TICKS]) == (after[TICKED], after[REFUSED_TICKS] + 5)
    assert ask_for(server.metrics, get(b"", b"/healthz")).status == 503
    for it in (connection, holder):
        it.socket.close()
    server.let_end(ticks)
    assert sorted(it for _, *it in server.failed_requests()) == sorted([it, "main", 1] for it in (CLOSED, UNANSWERED))
    expect_documented(server.full_log())


BEHIND, LAGS = ("bayeux_shards_behind", ""), [("bayeux_shard_lag_entries", f'{{shard="{it}"}}') for it in range(2)]
# How many sessions hear each event, how many events are published, and how many bytes of data the daemon may have then, which is less
# than it has.
HEARERS, PUBLISHED, LEAST_DATA = 4000, 600, 4096


@pytest.mark.alone
def test_metrics_show_the_lag_of_shards_without_memory(daemon, client, ticks, is_checked):
    """Later no shard lags."""
    if is_checked:
        pytest.skip("a checked build gets memory in other ways")
    server = daemon("--shards", "2", "--limit", "65536", env=ticks.env)
    connection = client(server)
    sessions = open_many(connection, HEARERS)
    for at in range(0, HEARERS, MOST_MESSAGES):
        some = [{"channel": "/meta/subscribe", "subscription": CHANNEL, **it} for it in sessions[at : at + MOST_MESSAGES]]
        expect_success(connection.ask(some), len(some))
    caught_up = dict.fromkeys([BEHIND, *LAGS], 0)
    # Then the thread of ticks has some memory.
    ticks.tick(10)
    first = server.expect(caught_up, pause=ticks.tick)[TICKED]
    events, sent = post(json.dumps([{"channel": CHANNEL, "data": 1, **sessions[0]}] * 4).encode()), 0

    def lags():
        """Returns the lag of each shard after a time without memory, or `None` if no shard lags."""
        nonlocal sent
        resource.prlimit(server.process.pid, resource.RLIMIT_DATA, (LEAST_DATA, resource.RLIM_INFINITY))
        for _ in range(PUBLISHED // 4):
            # Without memory, the daemon may end the connection.
            with contextlib.suppress(ConnectionEnded, OSError):
                connection.renew()
                connection.send(events)
                connection.response()
            sent += 4
            ticks.tick()
        resource.prlimit(server.process.pid, resource.RLIMIT_DATA, (resource.RLIM_INFINITY, resource.RLIM_INFINITY))
        page = server.scrape()
        found = [page[it] for it in LAGS]
        return found if any(found) and page[BEHIND] else None

    found = wait_until("a shard is behind", lags)
    # A request that is rejected for lack of memory may be an entry too.
    assert max(found) <= sent + server.scrape()[TICKED] - first
    server.expect(caught_up, pause=ticks.tick)


def test_metrics_are_served_after_a_lack_of_descriptors(daemon, client, ticks):
    """Meanwhile the metrics leave out what the system reports of the process, on which an alert of packaging/alerts.yml relies.

    The accept that waits already has its descriptor. The next one is the first to fail, and the listener then pauses for less than the
    time of a tick, which does not pass here. Without a pause, it would keep a processor busy.
    """
    server = daemon(env=ticks.env)
    with server.without_descriptors():
        connection = client(server.metrics)
        connection.send(get(b"", b"/metrics"))
        (response,) = connection.read_to_end()
        server.wait_until_idle("a descriptor")
    assert not [name for name, _ in read_page(response.body.decode()) if name.startswith("process_")]
    assert [name for name, _ in server.scrape() if name.startswith("process_")]
