"""bayeux_load: what it sends, counts, and prints for servers that are right or wrong.

The server of tests/lib/load_server.py puts the load's clock forward by a little with each message. In each run that ends with a report,
each request has the same head, each message has the members that docs/PROTOCOL.md names, and the rates and moments are within bounds
that the server's times give.
"""
import collections
import json
import os
import pty
import re
import select
import subprocess
import threading

import pytest

from base import TIMEOUT_SECONDS, reserved_port, wait_until
from daemon import CONNECT, HANDSHAKE
from load_server import EVENTS, NEVER, WRONG, Server, at_moment, kind_of, response_of
from strace import NO_STRACE, can_trace, failing

PATH = "/cometd/of/a load?a=b".replace(" ", "%20")
# The processors that the load sees by default. It has half as many threads, at least one and at most eight.
PROCESSORS = "6"
# The report. T: a time.
T = r"([0-9]+\.[0-9]{3})"
REPORT = re.compile(
    r"publishes: ([0-9]+), ([0-9]+) a second\nevents: ([0-9]+), ([0-9]+) a second\n"
    rf"latency: 50 % {T} ms 90 % {T} ms 99 % {T} ms 100 % {T} ms\n"
    r"(lost [0-9]+, doubled [0-9]+, out of order [0-9]+, unknown [0-9]+)\n"
)
WHOLE = "lost 0, doubled 0, out of order 0, unknown 0"
LOST = WHOLE.replace("lost 0", "lost 1")
# By how much a time may differ, since the clock has floating-point seconds.
ROUNDING = 1e-6


def form_of(message):
    """Returns the JSON of a message, with 0 in place of each number."""
    return re.sub("[0-9]+", "0", json.dumps(message, sort_keys=True))


# The messages that the load may send, each with any numbers.
SESSION, DATA = {"clientId": "0c"}, {"publisher": 0, "number": 0, "moment": 0}
MESSAGES = [
    *(HANDSHAKE, {**HANDSHAKE, "ext": {"ack": True}}),
    {"channel": "/meta/subscribe", "subscription": "/load/0", **SESSION},
    *({**CONNECT, **SESSION, **more} for more in ({}, {"ext": {"ack": 0}}, {"advice": {"timeout": 0}})),
    {"channel": "/load/0", "data": DATA, **SESSION},
]
FORMS = set(map(form_of, MESSAGES))


@pytest.fixture
def start(load_program):
    """Starts the load, which ends with the test: `start(server, arguments, variables, **streams)` returns a `Load`."""
    loads = []

    def start_load(server, *how, **streams):
        loads.append(Load(load_program, server, *how, **streams))
        return loads[-1]

    yield start_load
    for it in loads:
        it.process.kill()
        it.process.communicate()


class Load:
    """A run of the load on `server`. `arguments`: those after the URL. `start`, `end`: when it began and ended, by its clock."""

    def __init__(self, program, server, arguments, variables=None, before=(), **streams):
        self.server, self.start, self.end = server, server.clock.seconds, None
        args = [*before, program, f"http://{server.address()}{PATH}", *arguments.split()]
        env = {**server.clock.env, "PROCESSORS": PROCESSORS, **(variables or {})}
        streams = {"stdin": subprocess.DEVNULL, "stdout": subprocess.PIPE, "stderr": subprocess.PIPE, **streams}
        self.process = subprocess.Popen(args, env=env, **streams)

    def finish(self):
        """Waits for the end. Returns the status, the output, and standard error."""
        output, errors = self.process.communicate(timeout=2 * TIMEOUT_SECONDS)
        self.end = self.server.clock.seconds
        return self.process.returncode, (output or b"").decode(), (errors or b"").decode()

    def let_give_up(self, seconds):
        """Puts the clock forward by `seconds` again and again, until the load has ended."""
        clock, has_ended = self.server.clock, lambda: self.process.poll() is not None
        while not has_ended():
            before = clock.looks()
            wait_until("the load looks at the clock", lambda before=before: has_ended() or clock.looks() >= before + 40)
            clock.add(seconds)

    def check(self, status=0, last=WHOLE):
        """Checks the status, the report with its `last` line, and what was sent. Returns the latencies, in milliseconds."""
        found_status, output, errors = self.finish()
        report = REPORT.fullmatch(output)
        assert report, (found_status, output, errors)
        assert (found_status, report[9], errors) == (status, last, "")
        publishes, events = self.server.kinds("publish"), self.server.delivered
        assert (int(report[1]), int(report[3])) == (len(publishes), len(events))
        self.check_rate(int(report[2]), len(publishes), publishes[-1][2])
        self.check_rate(int(report[4]), len(events), events[-1][1] if events else self.end)
        usual = {"content-type": "application/json", "host": self.server.address()}
        for line, fields in self.server.heads:
            assert (line, fields) == (f"POST {PATH} HTTP/1.1", {**usual, "content-length": fields["content-length"]})
        assert {form_of(it) for it, _, _ in self.server.messages} <= FORMS
        self.check_moments()
        return [float(report[it]) for it in range(5, 9)]

    def ready(self):
        """Returns a time before all clients were ready."""
        return max(it[2] for it in self.server.kinds("/meta/handshake", "/meta/subscribe"))

    def check_rate(self, rate, count, last):
        """Checks a rate. `last`: a time before the last of `count` things happened. Rates are rounded down."""
        begun = self.server.kinds("publish")[0][1]
        most = count / (last - begun) if last > begun else float("inf")
        assert int(count / (self.end - self.ready()) - ROUNDING) <= rate <= most + ROUNDING

    def check_moments(self):
        """Checks the moments of the events, in nanoseconds since the load started, which was before its first request."""
        least = self.ready() - self.server.messages[0][1]
        for message, arrived, _ in self.server.kinds("publish"):
            assert least - ROUNDING <= message["data"]["moment"] / 1e9 <= arrived - self.start + ROUNDING


# What the server does with one event, the status of the load, and its last line.
EVENT_CASES = {
    "pass": (0, WHOLE),
    "lengthen": (0, WHOLE),
    "lose": (1, LOST),
    "double": (1, "lost 0, doubled 1, out of order 0, unknown 0"),
    "delay": (1, "lost 0, doubled 0, out of order 1, unknown 0"),
    "change": (1, "lost 1, doubled 0, out of order 0, unknown 1"),
    "stray": (1, "lost 0, doubled 0, out of order 0, unknown 1"),
}


@pytest.mark.parametrize("deed", EVENT_CASES)
def test_events_that_a_server_treats_wrongly_are_counted(start, clock, deed):
    """Such an event has a latency. Another one is passed on in a response of a megabyte."""
    # A stray event needs a session of another channel, which has a publisher of its own.
    clients = "2 2 2" if deed == "stray" else "1 1 1"
    with Server(clock, deed) as server:
        load = start(server, f"{clients} {EVENTS}")
        if deed in ("lose", "change"):
            wait_until("all events are passed on", lambda: server.published == EVENTS and server.has_read_all())
            load.let_give_up(6)
        latencies = load.check(*EVENT_CASES[deed])
    assert latencies[-1] > 0


def delay_subscription(server, number):
    """Lets the server answer the subscription with this number, counted from 1, a second late."""

    def before(message):
        if [it[0] is message for it in server.kinds("/meta/subscribe")][number - 1 : number] == [True]:
            server.clock.add(1.0)
            server.clock.await_looks(20)

    server.before = before


def test_shares_of_sessions_publishers_and_events(start, clock):
    """Sessions and publishers are divided among the channels, and events among the publishers, who wait for all subscriptions."""
    sessions, publishers = 5, 3
    with Server(clock) as server:
        delay_subscription(server, sessions)
        start(server, f"{sessions} 2 {publishers} {EVENTS}").check()
    handshakes, subscriptions, publishes = (server.kinds(it) for it in ("/meta/handshake", "/meta/subscribe", "publish"))
    assert [it for it, _, _ in handshakes] == [HANDSHAKE] * (sessions + publishers)
    per_channel = collections.Counter(it["subscription"] for it, _, _ in subscriptions)
    assert sorted(per_channel.values()) == [2, 3]
    by_publisher = collections.defaultdict(list)
    for it, _, _ in publishes:
        by_publisher[it["clientId"]].append(it["channel"])
    assert sorted(map(len, by_publisher.values())) == [3, 3, 4]
    assert [len(set(them)) for them in by_publisher.values()] == [1] * publishers
    assert sorted(collections.Counter(them[0] for them in by_publisher.values()).values()) == [1, 2], "publishers of each channel"
    assert not {it["clientId"] for it, _, _ in subscriptions} & set(by_publisher), "sessions that subscribe and publish"
    assert len(server.delivered) == sum(per_channel[it["channel"]] for it, _, _ in publishes)
    assert publishes[0][1] >= max(it[2] for it in subscriptions)


def test_publishers_without_sessions_only_publish(start, clock):
    with Server(clock) as server:
        assert start(server, f"0 1 2 {EVENTS}").check() == [0.0] * 4
    assert not server.kinds("/meta/subscribe", "/meta/connect")


# The clients that each thread opens at a time, and the number of publishers, each with one event.
AT_ONCE, MANY = 32, 300


@pytest.mark.parametrize("processors, threads", [(1, 1), (6, 3), (40, 8)])
def test_many_clients_are_opened_some_at_a_time(start, clock, processors, threads):
    """The server answers handshakes only once the greatest number of them waits, and the load sends no more."""
    first, waiting = threading.Lock(), []
    with Server(clock) as server:

        def count_waiting(_):
            with first:
                if not waiting:
                    wait_until("handshakes wait", lambda: len(server.kinds("/meta/handshake")) >= threads * AT_ONCE)
                    clock.await_looks(40)
                    waiting.append(len(server.kinds("/meta/handshake")))

        server.before = count_waiting
        start(server, f"1 1 {MANY} {MANY}", {"PROCESSORS": str(processors)}).check()
    assert (waiting, len(server.kinds("/meta/handshake"))) == ([threads * AT_ONCE], 1 + MANY)


@pytest.mark.parametrize("more", ["ack", "1000 ack"])
def test_acks_of_each_batch(start, clock, more):
    """The server then does not repeat it."""
    with Server(clock) as server:
        start(server, f"2 1 1 {EVENTS} {more}").check()
    found = sorted((it.channel is not None, it.is_acknowledging) for it in server.sessions.values())
    assert found == [(False, False), (True, True), (True, True)]


def publish_in_turn(server, seconds, count, between=lambda number: None):
    """Puts the clock forward by `seconds` after each of `count` publishes. `between`: is called before that."""
    for number in range(1, count):
        wait_until(f"{number} publishes", lambda number=number: len(server.kinds("publish")) >= number)
        between(number)
        server.clock.add(seconds)


def test_rate_of_publishes(start, clock):
    """No event is published before it is due."""
    rate, count = 5, 8
    with Server(clock) as server:
        delay_subscription(server, 2)
        load = start(server, f"2 1 {count} {count} {rate}")
        publish_in_turn(server, 1 / rate, count)
        load.check()
    for message, arrived, _ in server.kinds("publish"):
        assert arrived >= load.ready() + message["data"]["publisher"] / rate


def test_quiet_publishers_keep_their_sessions(start, clock):
    """With a connect every five seconds, since a session lives for ten."""
    count, pause = 10, 5

    def await_connects(number):
        """Waits for the connects of those that have waited for over five seconds, and still wait."""
        waiting = count - number if number > pause + 1 else 0
        wait_until("connects", lambda: len({it["clientId"] for it, _, _ in server.kinds("/meta/connect")}) >= waiting)

    with Server(clock) as server:
        load = start(server, f"0 1 {count} {count} 1")
        publish_in_turn(server, 1.0, count, await_connects)
        load.check()
    last = server.kinds("publish")[-1][0]["clientId"]
    assert last in {it["clientId"] for it, _, _ in server.kinds("/meta/connect")}
    assert all(it.get("advice") == {"timeout": 0} for it, _, _ in server.kinds("/meta/connect"))
    opened, kept = min(it[2] for it in server.kinds("/meta/handshake")), collections.Counter()
    for message, arrived, _ in server.kinds("/meta/connect"):
        kept[message["clientId"]] += 1
        assert arrived >= opened + kept[message["clientId"]] * pause


# The number of events without a latency, the last event of each later stage, and the part by which a latency may be greater.
NO_LATENCY, STAGES, COARSE = 50, (90, 99, 100), 1 / 64


def test_latency_of_50_90_99_and_100_percent(start, clock):
    """The server changes when events were sent, so that their latencies are known: a quarter of a second more for each stage."""
    with Server(clock) as server:
        publish = server.publish

        def begin_stage(message):
            if kind_of(message) == "publish" and message["data"]["number"] in (NO_LATENCY, *STAGES[:-1]):
                wait_until("a connect after the earlier events", server.has_read_all)
                clock.add(0.25)

        server.before = begin_stage
        server.publish = lambda event: publish(at_moment(event, NEVER if event["data"]["number"] < NO_LATENCY else 0))
        load = start(server, f"1 1 1 {STAGES[-1]}")
        least, *others = load.check()
    assert least == 0.0
    first = server.messages[0][1]
    for last, latency in zip(STAGES, others):
        _, sent, client = server.delivered[last - 1]
        taken = min((it for it in server.taken[client] if it > sent), default=load.end)
        assert 1000 * (sent - first) - 0.001 <= latency <= 1000 * (taken - load.start) * (1 + COARSE) + 0.001


def test_parts_of_responses(start, clock):
    """Whatever the fields of their heads, and the case and the form of the length."""

    def send_parts(socket, _, items):
        body = json.dumps(items).encode()
        name = (b"CONTENT-LENGTH:%d", b"Content-Length:  %d ")[len(body) % 2] % len(body)
        # A field as long as proxies allow by default.
        data = b"\r\n".join([b"HTTP/1.1 200 ", b"x-content-length: 1", name, b"Date: \t", b"x: " + b"x" * 8_000, b"", body])
        for part in (data[:9], data[9:40], data[40:-9], data[-9:]):
            socket.sendall(part)
            clock.await_looks(2)
        return True

    with Server(clock) as server:
        server.send = send_parts
        start(server, f"2 1 1 {EVENTS}").check()


# The clock is put forward before the server answers messages of a kind, or before it passes on the last events: the kind or "event",
# the seconds in turn, and the last line of the report, or `None` if the load gives up.
JUMPS = [
    *((kind, *row) for kind in ("/meta/handshake", "/meta/subscribe", "publish") for row in (([25], WHOLE), ([31], None))),
    *((kind, [7] * 8, WHOLE) for kind in ("/meta/handshake", "publish")),
    *(("event", *row) for row in (([4], WHOLE), ([6], LOST), ([1.5] * 6, WHOLE))),
]


class JumpServer(Server):
    """A server that puts the load's clock forward by each of `jumps` in turn, before it answers a message of a kind.

    It answers when the load has looked at the clock, or if `answers` is false, only when `is_over` is set. If `kind` is "event", it
    treats the responses with the last events so, once all are published.
    """

    most_events = 1

    def __init__(self, clock, kind, jumps, answers):
        super().__init__(clock)
        self.kind, self.jumps, self.answers = kind, collections.deque(jumps), answers
        self.first, self.turn, self.is_over = EVENTS - len(jumps), threading.Lock(), threading.Event()

    def jump(self):
        """Puts the clock forward, unless this was done for each of `jumps`."""
        if self.jumps:
            self.clock.await_looks(20)
            self.clock.add(self.jumps.popleft())
            if self.answers:
                self.clock.await_looks(20)
            else:
                self.is_over.wait(2 * TIMEOUT_SECONDS)

    def send(self, socket, message, items):
        if len(items) > 1 and self.kind == "event" and len(self.delivered) > self.first:
            wait_until("all are published", lambda: self.published == EVENTS)
        elif kind_of(message) != self.kind:
            return super().send(socket, message, items)
        with self.turn:
            self.jump()
            return super().send(socket, message, items)


@pytest.mark.parametrize("kind, jumps, line", JUMPS, ids=lambda it: str(it) if it else "gives up")
def test_silent_server_is_waited_for(start, clock, kind, jumps, line):
    """For 25 seconds, but not for 31, and for an event for four, but not for six. Longer if others arrive meanwhile."""
    # With a single thread, each look is that of the thread that waits.
    threads = {"PROCESSORS": "1"} if line else {}
    with JumpServer(clock, kind, jumps, answers=line == WHOLE) as server:
        load = start(server, f"1 1 {EVENTS} {EVENTS}" if kind == "/meta/handshake" else f"1 1 1 {EVENTS}", threads)
        if not line:
            wait_until("the clock is put forward", lambda: not server.jumps)
            load.let_give_up(31)
        status, output, errors = load.finish()
        server.is_over.set()
    if line:
        assert (status, output.splitlines()[-1:], errors) == (int(line != WHOLE), [line], "")
    else:
        assert (status, output, errors) == (1, "", "bayeux_load: no progress for 30 seconds\n")


# A line of progress, and what erases it in the end.
PROGRESS = re.compile(rb"\r([ 0-9]{4}[0-9]) s  ([0-9]+) to open, ([0-9]+) to publish, ([0-9]+) events\x1b\[K")
ERASED = b"\r\x1b[K"


def lines_of(shown):
    """Returns the numbers in each line of progress: the seconds, the clients to open, the events to publish, and the events."""
    return [tuple(map(int, it)) for it in PROGRESS.findall(shown)]


def test_terminal_shows_progress(start, clock):
    """Each second, and in the end nothing. While one publish is not answered, nobody is left to open, and all earlier events have arrived."""
    counts, shown, (master, terminal) = (0, EVENTS - WRONG, 2 * WRONG), bytearray(), pty.openpty()

    def has_shown(is_enough):
        """Reads what the terminal shows. Returns whether it is enough."""
        while select.select([master], [], [], 0)[0]:
            shown.extend(os.read(master, 1 << 16))
        return is_enough()

    with Server(clock) as server:
        is_free = threading.Event()
        server.before = lambda it: kind_of(it) == "publish" and it["data"]["number"] == WRONG and is_free.wait(TIMEOUT_SECONDS)
        load = start(server, f"2 1 1 {EVENTS}", stderr=terminal)
        wait_until("earlier events", lambda: len(server.delivered) == 2 * WRONG)
        for _ in range(3):
            server.clock.add(1.0)
            wanted = int(server.clock.seconds), *counts
            wait_until("a line of progress", lambda wanted=wanted: has_shown(lambda: wanted in lines_of(shown)))
        is_free.set()
        load.check()
    wait_until("the line is erased", lambda: has_shown(lambda: shown.endswith(ERASED)))
    os.close(terminal)
    os.close(master)
    assert PROGRESS.sub(b"", shown) == ERASED
    lines = lines_of(shown)
    assert lines == sorted(lines, key=lambda it: (it[0], -it[1], -it[2], it[3])) and lines[-1][0] <= load.end


UNREACHED, ENDED = "cannot reach the server", "the server closed a connection"
SYSTEM = "a system call failed; are there enough file descriptors (ulimit -n)?"
UNEXPECTED = "unexpected response (not 200 with replies)"
REFUSED = "the server rejected a message; a session's queue may have overflowed"
KINDS = ("/meta/handshake", "/meta/subscribe", "/meta/connect", "publish")


def with_id(client):
    """Returns a function that returns a response with the client id `client`, or without one if it is `None`."""
    return lambda items: response_of([{**items[-1], "clientId": client} if client is not None else {"successful": True}])


def with_event(data):
    """Returns a function that returns a response with an event, followed by the right items."""
    return lambda items: response_of([{"channel": "/load/0", "data": data}, *items])


# Wrong responses, each a function of the right items, the message, and the kinds of messages, by default all. None: no response and the
# end of the connection.
RESPONSES = {
    "no response": (lambda items: None, ENDED),
    "an error": (lambda items: response_of([{**items[-1], "successful": False, "error": "402::x"}]), REFUSED),
    "status 201": (lambda items: response_of(items, b"201 Created"), UNEXPECTED),
    "status 404": (lambda items: response_of(items, b"404 Not Found"), UNEXPECTED),
    "status 503": (lambda items: response_of(b"", b"503 Service Unavailable"), UNEXPECTED),
    "HTTP/1.0": (lambda items: response_of(items, version=b"HTTP/1.0"), UNEXPECTED),
    "no length": (lambda items: b"HTTP/1.1 200 OK\r\n\r\n" + json.dumps(items).encode(), UNEXPECTED),
    "more than the length": (lambda items: response_of(items) + b"x", UNEXPECTED),
    "a long head": (lambda items: b"HTTP/1.1 200 OK\r\nx: " + b"x" * 16_400, UNEXPECTED),
    "no JSON": (lambda items: response_of(b"["), UNEXPECTED),
    "no array": (lambda items: response_of(items[-1]), UNEXPECTED),
    "no reply": (lambda items: response_of(b"[]"), UNEXPECTED),
    "neither reply nor event": (lambda items: response_of([{"channel": "/a"}]), UNEXPECTED),
    "a success of another type": (lambda items: response_of([{"successful": "true", "clientId": "1"}]), UNEXPECTED),
    **{f"the client id {it!r}": (with_id(it), UNEXPECTED, "/meta/handshake") for it in (None, 7, '1"', "1\\", "1 2", "1\u00e4")},
    **{f"an event with {it!r}": (with_event(it), UNEXPECTED) for it in (None, 5, "x", {**DATA, "number": -1}, {"publisher": 0, "number": 0})},
    "an event for a publisher": (with_event(DATA), UNEXPECTED, "publish"),
    "an event without a reply": (lambda items: with_event(DATA)([]), UNEXPECTED, "/meta/connect"),
}


def expect_message(load, message):
    """Checks that a load ends with status 1 and `message`, and without a report."""
    assert load.finish() == (1, "", f"bayeux_load: {message}\n")


FAULTS = [(what, kind) for what, (_, _, *kinds) in RESPONSES.items() for kind in kinds or KINDS]


@pytest.mark.parametrize("what, kind", FAULTS, ids=[f"{what} to {kind.rpartition('/')[2]}" for what, kind in FAULTS])
def test_faults_of_the_server_are_named(start, clock, what, kind):
    """The server sends the wrong response to the first message of the kind."""
    respond, message, *_ = RESPONSES[what]
    with Server(clock) as server:

        def send(socket, sent, items):
            is_first = kind_of(sent) == kind and server.kinds(kind)[0][0] is sent
            response = respond(items) if is_first else response_of(items)
            if response is not None:
                socket.sendall(response)
            return response is not None

        server.send = send
        expect_message(start(server, f"3 1 1 {EVENTS}"), message)


@pytest.mark.parametrize("port", [0, 65_536, "x"])
def test_faults_nobody_listens(start, clock, port):
    with Server(clock) as server, reserved_port() as unused:
        server.address = lambda: f"127.0.0.1:{port or unused}"
        expect_message(start(server, f"1 1 1 {EVENTS}"), UNREACHED)


# The errors of calls, and the message for each (docs/ERRORS.md).
CALLS = ("connect", "recvfrom", "sendto")
FAILURES = [
    *(("connect", it, UNREACHED) for it in ("ECONNREFUSED", "EHOSTUNREACH", "ENETUNREACH", "ETIMEDOUT")),
    *((call, it, ENDED) for call in CALLS[1:] for it in ("ECONNRESET", "EPIPE")),
    *((it, *row) for it in CALLS for row in (("ENOMEM", "out of memory"), ("EACCES", SYSTEM))),
    ("socket", "EMFILE", SYSTEM),
]


@pytest.mark.skipif(not can_trace(), reason=NO_STRACE)
@pytest.mark.parametrize("call, error, message", FAILURES)
def test_failures_of_calls_are_named(start, clock, call, error, message):
    with Server(clock) as server:
        expect_message(start(server, "1 1 1 1", before=failing(call, error, "1+")), message)


def test_full_file_of_the_report(start, clock):
    with Server(clock) as server, open("/dev/full", "wb") as full:
        assert start(server, f"1 1 1 {EVENTS}", stdout=full).finish() == (1, "", "")


USAGE = "usage: bayeux_load url sessions channels publishers events [rate] [ack]\n"
COUNT = "expected a number from 1 to 4294967295"
# Wrong arguments, and the message for them. Tests of `bx_load` check which of several wrong arguments is named.
ARGUMENTS = [
    ("--help", "expected 5 to 7 arguments"),
    ("https://h/x 1 1 1 1", "url: expected a URL such as http://127.0.0.1:8087/cometd"),
    ("http://h/\u00e4 1 1 1 1", "url: expected a URL such as http://127.0.0.1:8087/cometd"),
    ("http://h/x -1 1 1 1", "sessions: expected a number from 0 to 4294967295"),
    ("http://h/x 0 0 1 1", f"channels: {COUNT}"),
    ("http://h/x 0 1 x 1", f"publishers: {COUNT}"),
    ("http://h/x 0 1 1 4294967296", f"events: {COUNT}"),
    ("http://h/x 0 1 1 1 acks", f"rate: {COUNT}, or ack"),
    ("http://h/x 0 1 1 1 5 Ack", "ack: expected ack as the seventh argument"),
    (b"\xff 1 1 1 1", "expected arguments in UTF-8"),
]


@pytest.mark.parametrize("words, message", ARGUMENTS)
def test_arguments_that_are_wrong(load_program, words, message):
    result = subprocess.run([load_program, *words.split()], stdin=subprocess.DEVNULL, capture_output=True, timeout=TIMEOUT_SECONDS, check=False)
    assert (result.returncode, result.stdout, result.stderr.decode()) == (2, b"", f"{USAGE}bayeux_load: {message}\n")
