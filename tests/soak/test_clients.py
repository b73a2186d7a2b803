"""Unlucky clients and wrong requests for minutes: no event is lost, doubled or out of order, and no memory or descriptor is lost.

GADZILK_MINUTES is the number of minutes, by default one. If strace works here, some of the daemon's system calls fail meanwhile.
"""
import json
import os
import random
import select
import statistics
import threading
import time
import urllib.parse

import pytest

import streams
from base import wait_until
from daemon import ConnectionEnded, check_serves, get, post
from recording import Check
from strace import STRACE, can_trace
from subscriber import Publisher, Subscriber, check_events

pytestmark = [pytest.mark.soak, pytest.mark.timeout(0)]
SECONDS = 60 * float(os.environ.get("GADZILK_MINUTES", "1"))
# The number of publishers, how many events each sends a second at most, and the numbers of subscribers.
PUBLISHERS, RATE, SUBSCRIBERS, PLAIN = 10, 3, 12, 4
# The probabilities that a request is cut, and that a client vanishes, and how long at most, in seconds.
CUTS, VANISHING, AWAY = 0.05, 0.01, 15.0
FLAGS = ["--timeout", "2s", "--max-interval", "60s", "--limit", "65536"]
# On each thread the 20th of these calls fails, and then each 50th.
FAULTS = ["inject=accept4:error=EMFILE:when=20+50", "inject=epoll_wait:error=EINTR:when=20+50"]
# The number of samples of the memory, and by how many KiB it may grow, since the allocator may keep them free.
SAMPLES, KEPT_FREE = 24, 4096


class Unlucky(Subscriber):
    """A subscriber whose connections are cut, and that vanishes for a while. `way`: "post", "callback", or "slow", which reads a little at a time."""

    def __init__(self, address, pattern, number, way="post", **how):
        self.random, self.way, self.cuts = random.Random(number), way, None
        super().__init__(address, pattern, **how)
        self.cuts = 0

    def exchange(self, connection, message):
        document = json.dumps([message]).encode()
        data = get(b"?jsonp=call&message=" + urllib.parse.quote(document).encode()) if self.way == "callback" else post(document)
        is_cut = self.cuts is not None and not self.is_over.is_set() and self.random.random() < CUTS
        connection.send(data[: self.random.randrange(len(data))] if is_cut and self.random.random() < 0.3 else data)
        if is_cut:
            # It may have sent all, and may read a part of the response.
            select.select([connection.socket], [], [], self.random.choice((0.0, 0.001, 0.1, 1.0)))
            self.cuts += 1
            raise ConnectionEnded("cut")
        while self.way == "slow" and len(connection.input) < 3000 and b"}]" not in connection.input and connection.receive():
            time.sleep(0.05)
        response = connection.response()
        if self.way == "callback":
            response.body = response.body.removeprefix(b"call(").removesuffix(b")")
        return None if response.status == 503 else response.items()

    def take(self, items):
        # A connect that was cut may be admitted after its repetition.
        if items[-1].get("error", "").startswith("408::"):
            return 0
        if self.random.random() < VANISHING:
            self.close()
            self.is_over.wait(AWAY * self.random.random())
        return super().take(items)


def annoy(server, number, is_over):
    """Sends invalid and unlucky requests until `is_over` is set. `number`: chooses them."""
    chance = random.Random(f"annoyer {number}")
    while not is_over.wait(0.1):
        if chance.randrange(46):
            maker = chance.choice((streams.stream, streams.stream, streams.cut))
            streams.end(chance, server.address, maker(chance, ["x"]))
        else:
            streams.check_slow(chance, server.address)


def run_clients(server, publishers, subscribers):
    """Runs clients for SECONDS, and returns samples of the daemon's memory in KiB. At each sample, a new client is served."""
    is_over, samples, clients = threading.Event(), [], [*publishers, *subscribers]
    annoyers = [threading.Thread(target=annoy, args=(server, it, is_over), daemon=True) for it in range(2)]
    for it in [*clients, *annoyers]:
        it.start()
    try:
        for _ in range(SAMPLES):
            time.sleep(SECONDS / SAMPLES)
            check_serves(server.address, "/new")
            samples.append(server.kilobytes())
            assert not [it.wrong for it in clients if it.wrong]
    finally:
        is_over.set()
    for it in clients:
        it.finish()
    for it in annoyers:
        it.join()
    return samples


def test_unlucky_clients_lose_nothing(daemon, is_checked, tmp_path, replay_program):
    """Acknowledging ones have each event once, in the same order. Others have none twice, and those of a publisher in order."""
    record, strace = tmp_path / "record", []
    if can_trace():
        strace = [*STRACE, "-o", "/dev/null", "-e", "trace=accept4,epoll_wait", *(word for it in FAULTS for word in ("-e", it))]
    server = daemon("--listen", "127.0.0.1:0", *FLAGS, "--readers", "127.0.0.1:0", "--record", str(record), "--record-answers", before=strace)
    check_serves(server.address, "/first")
    before = server.descriptors()
    publishers = [Publisher(server.address, f"/soak/{it}", 1 / RATE) for it in range(PUBLISHERS)]
    kinds = [(server.address, "post"), (server.address, "callback"), (server.readers, "post"), (server.address, "slow")]
    patterns = ["/soak/**", "/soak/*", "/soak/{}"]
    subscribers = []
    for number in range(SUBSCRIBERS + PLAIN):
        address, way = kinds[number % len(kinds)]
        pattern = patterns[number // len(kinds) % len(patterns)].format(number % PUBLISHERS)
        subscribers.append(Unlucky(address, pattern, number, way, is_acknowledging=number < SUBSCRIBERS))
    with Check(replay_program, record, "--follow") as follows:
        samples = run_clients(server, publishers, subscribers)
        check_events(publishers, [it for it in subscribers if it.is_acknowledging])
        wait_until(f"at most {before} descriptors are open", lambda: server.descriptors() <= before)
        server.close()
        follows.interrupt()
    with Check(replay_program, record) as check:
        assert check.end() > 0
    print(f"{sum(it.sent for it in publishers)} events, {sum(it.cuts for it in subscribers)} cuts, KiB: {samples}")
    quarter = SAMPLES // 4
    growth = statistics.median(samples[-quarter:]) - statistics.median(samples[quarter : 2 * quarter])
    assert growth <= KEPT_FREE or is_checked
