"""Random clients of a daemon that records: what they were answered is what the replay of the record answers.

Each response with status 200 has a digest in the record, which scripts/replay_record compares with the replay: also while the daemon
runs. Sessions expire, and connects are held, on a virtual clock.
"""
import hashlib
import json
import random
import re
import stat
import threading
import urllib.parse

import pytest

from base import readable, wait_until
from daemon import CONNECT, FORM, HANDSHAKE, Connection, check_serves, get, post
from documents import VALUES, message
from recording import Check, read_record

RUNS = {
    "shards": ["--shards", "4"],
    "riding": ["--shards", "3", "--ride", "--anonymous", "--limit", "40", "--bytes", "9000"],
    "readers": ["--shards", "2", "--readers", "127.0.0.1:0"],
}
# The number of clients, of the turns of each, and the most publishes of a request.
CLIENTS, TURNS, MANY_TURNS, BATCH = 8, 60, 3000, 40
# How long a connect is held, and how long a session may be silent, in seconds. All connections are ended after 30 seconds without a
# request, so clients rest only until the clock has `RESTS` seconds.
EXPIRING, SILENT, RESTS = ["--timeout", "2s", "--max-interval", "3s"], 3, 15.0
# A mark: the id of the first message of a request. Each request has another one.
MARK = re.compile(rb"q-[0-9]+-[0-9]+-")
DATA = [*VALUES, "a%41+b&c=d", "\U0001f600 \u00e4", {"more": {"a": 1, "b": "%0A+"}}, "x" * 300]
CALLBACK = b"a.b[0]"
# How to send documents: as they are, with line ends between members, as a form with an empty document, or as a query with a callback.
WAYS = [
    post,
    post,
    lambda it: post(it.replace(b', "', b',\r\n "')),
    lambda it: post(b"other=1&message=" + urllib.parse.quote_plus(it).encode() + b"&message=[]", FORM),
    lambda it: get(b"?jsonp=a.b%5B0%5D&message=" + urllib.parse.quote(it).encode()) if len(it) < 10_000 else post(it),
]


def digest_of(response):
    """Returns the digest of the JSON in a response."""
    body = response.body
    if body.startswith(CALLBACK):
        body = body[len(CALLBACK) + 1 : -1].replace(rb"\u2028", "\u2028".encode()).replace(rb"\u2029", "\u2029".encode())
    return hashlib.sha256(body).digest()


class Client(threading.Thread):
    """A client that makes random requests, and sends connects to the next listener after that of its other requests.

    All wait at `finish` before their last connects. `seen`: the status and the digest of each response, by the mark of its request.
    """

    def __init__(self, number, server, clock, finish, turns):
        super().__init__(daemon=True)
        listeners = [server.address, *([server.readers] if "--readers" in server.process.args else [])]
        self.address, self.connect_address = (listeners[it % len(listeners)] for it in (number, number + 1))
        self.number, self.server, self.clock, self.finish, self.turns = number, server, clock, finish, turns
        # `held`: the mark of the held connect, or `None`.
        self.random, self.count, self.seen, self.wrong, self.held = random.Random(number), 0, {}, None, None

    def run(self):
        """Takes all turns."""
        try:
            with Connection(self.address) as self.requests, Connection(self.connect_address) as self.connects:
                self.work()
        except Exception as error:  # pylint: disable=broad-exception-caught
            self.wrong = error
            self.finish.abort()

    def work(self):
        self.open()
        for turn in range(self.turns):
            self.random.choice(CHOICES)(self)
            self.take()
            if self.number % 4 == 0 and self.clock.seconds < RESTS * turn / self.turns:
                # Meanwhile sessions expire.
                self.take_held()
                self.clock.tick(10 * SILENT + 5)
        self.finish.wait()
        # No message follows that could answer these connects, so only ticks do.
        self.take_held()
        self.connect()
        self.take_held()

    def keep(self, mark, response):
        """Keeps what is needed of the response to the request `mark`, and returns the response."""
        self.seen[mark.encode()] = response.status, digest_of(response)
        return response

    def marked(self, messages, way=None):
        """Returns a new mark, and a request of `messages` that has it. `way`: how to send them, by default at random."""
        self.count += 1
        mark = f"q-{self.number}-{self.count}-"
        document = json.dumps([{**messages[0], "id": mark}, *messages[1:]], ensure_ascii=False)
        return mark, (way or self.random.choice(WAYS))(document.encode())

    def ask(self, messages, way=None):
        """Sends `messages`, and returns the response."""
        mark, request = self.marked(messages, way)
        self.requests.renew()
        self.requests.send(request)
        return self.keep(mark, self.requests.response())

    def open(self):
        """Opens a session, which sometimes acknowledges, and subscribes."""
        ext = {"ext": {"ack": True}} if self.random.random() < 0.5 else {}
        # A daemon answers with 503 if its window is full.
        while (response := self.ask([{**HANDSHAKE, **ext}], post)).status == 503:
            pass
        self.id, self.acknowledged = response.items()[-1]["clientId"], 0
        self.ask([{"channel": "/meta/subscribe", "subscription": self.random.sample(PATTERNS, 2), "clientId": self.id}])

    def publish(self):
        """Sends a request of several publishes."""
        channel = self.random.choice(["/a", "/a/b", "/a/b/c", "/service/x"])
        self.ask([{"channel": channel, "data": self.random.choice(DATA), "clientId": self.id} for _ in range(self.random.randint(1, BATCH))])

    def send_some(self):
        """Sends a request of random messages, right and wrong. None of them is held, since nothing else follows on its connection."""
        made = [message(self.random, [self.id, "x", "x"]) for _ in range(self.random.randint(1, 9))]
        self.ask([{**it, "advice": {"timeout": 0}} if it["channel"] == "/meta/connect" else it for it in made])

    def connect(self):
        """Sends a connect on the second connection, unless one is held there. It acknowledges the last batch, nothing, or the one before."""
        self.take()
        if self.held:
            return
        connect = {**CONNECT, "clientId": self.id}
        acknowledged = self.random.choice([self.acknowledged] * 3 + [None] * 2 + [max(self.acknowledged - 1, 0)])
        if acknowledged is not None:
            connect["ext"] = {"ack": acknowledged}
        if self.random.random() < 0.3:
            connect["advice"] = {"timeout": 0}
        self.held, request = self.marked([connect])
        self.connects.renew()
        self.connects.send(request)

    def take(self):
        """Reads the response to the held connect, if it has arrived."""
        if not self.held or not readable(self.connects.socket):
            return
        response, self.held = self.keep(self.held, self.connects.response()), None
        if response.status == 200 and not response.body.startswith(CALLBACK):
            self.acknowledged = response.items()[-1].get("ext", {}).get("ack", self.acknowledged)

    def take_held(self):
        """Puts the clock forward until the held connect has its response, and no further."""
        while self.held:
            with self.clock.lock:
                self.take()
                if self.held:
                    self.clock.tick()
                    self.server.wait_for_rest()

    def cut(self):
        """Sends all or most of a publish on a new connection, and closes it before the response."""
        _, data = self.marked([{"channel": "/a/b", "data": "cut", "clientId": self.id}], post)
        with Connection(self.address) as connection:
            connection.send(data[: self.random.choice([len(data) - 9, len(data)])])


PATTERNS = ["/a/b", "/a/*", "/a/**", "/**", "/unheard"]
CHOICES = [Client.publish] * 6 + [Client.connect] * 4 + [Client.send_some] * 3 + [Client.open] * 2 + [Client.cut]


def check_responses(path, clients):
    """Checks that the record has the right digest of each response with status 200, and returns their number.

    A request that was rejected must not be there, except that the daemon may answer a recorded one with 503.
    """
    requests, digests, _ = read_record(path)
    places = {found.group(): place for place, line in requests if (found := MARK.search(line))}
    seen = {mark: it for client in clients for mark, it in client.seen.items()}
    for mark, (status, digest) in seen.items():
        if status == 200:
            assert digests.get(places[mark]) == digest, mark
        else:
            assert status == 503 or mark not in places, mark
    return sum(status == 200 for status, _ in seen.values())


@pytest.mark.timeout(900)
@pytest.mark.parametrize("turns", [TURNS, pytest.param(MANY_TURNS, marks=pytest.mark.soak)])
@pytest.mark.parametrize("flags", RUNS.values(), ids=RUNS)
def test_responses_are_those_of_the_replay(daemon, ticks, tmp_path, replay_program, flags, turns):
    path = tmp_path / "record"
    server = daemon("--record", str(path), "--record-answers", *EXPIRING, *flags, env=ticks.env)
    assert stat.S_IMODE(path.stat().st_mode) == 0o600, "not its owner's alone"
    finish = threading.Barrier(CLIENTS)
    clients = [Client(number, server, ticks, finish, turns) for number in range(CLIENTS)]
    with Check(replay_program, path, "--follow") as follows:
        for it in clients:
            it.start()
        for it in clients:
            it.join()
        assert [it.wrong for it in clients] == [None] * CLIENTS
        server.process.stdin.close()
        server.let_end(ticks)
        follows.interrupt()
    assert f"recording complete bytes={path.stat().st_size}" in server.logged()
    compared = check_responses(path, clients)
    assert compared >= sum(it.count for it in clients) / 3
    with Check(replay_program, path) as check:
        assert check.end() >= compared


def test_record_ends_before_a_request_that_is_too_large_for_a_line(daemon, client, tmp_path, replay_program):
    """The request has a line end, so the record would have it as a form, in which each of its characters takes six bytes.

    The daemon serves on, and the answers before are right.
    """
    path = tmp_path / "record"
    server = daemon("--record", str(path), "--record-answers")
    check_serves(server.address, "/before")
    wait_until("an answer is in the record", lambda: read_record(path)[1])
    connection = client(server)
    connection.send(post(b'[\n{"channel":"/large","data":"%s"}]' % ("\u00e4" * 200_000).encode()))
    connection.response().items()
    found = server.wait_for_log(r'recording ended early bytes=([0-9]+) place=([0-9]+) reason="a request is too large for a record line')
    check_serves(server.address, "/after")
    server.close()
    with Check(replay_program, path) as check:
        assert check.end() > 0
    assert tuple(map(int, found.groups())) == (path.stat().st_size, read_record(path)[2])
    assert b"%C3%A4%C3%A4" not in path.read_bytes()
