"""Random valid and invalid requests, which get the right responses, and byte streams that disturb nobody else.

One batch of each kind runs always. With -m soak, GADZILK_BATCHES more of each do, 200 by default, from a seed that is new in each run,
unless GADZILK_SEED names it.
"""
import os
import random

import pytest

import documents
import streams
from base import wait_until
from daemon import HANDSHAKE, Connection, check_serves, expect_success

PIPELINE = 32
BATCHES, SEED = int(os.environ.get("GADZILK_BATCHES", "200")), os.environ.get("GADZILK_SEED", str(random.randrange(1 << 32)))
# How to make a request and its check, and how many of them a batch has.
PIPELINED = {
    "documents": (documents.post_case, 512),
    "forms": (documents.form_case, 256),
    "queries": (documents.get_case, 256),
}
STREAMS = {"streams": (streams.stream, 64), "cuts": (streams.cut, 64)}


def run_pipelined(chance, address, clients, maker, count):
    """Sends `count` requests on one connection, `PIPELINE` at a time, and checks each response."""
    with Connection(address) as connection:
        for first in range(0, count, PIPELINE):
            cases = [maker(chance, clients) for _ in range(min(PIPELINE, count - first))]
            connection.send(b"".join(data for data, _ in cases))
            for data, check in cases:
                try:
                    check(connection.response())
                except Exception as error:
                    raise AssertionError(f"{len(data)} bytes: {data[:3000]!r}") from error


def run_batch(server, kind, seed):
    """Runs a batch of a kind, and then a well-behaved client. `seed`: determines the batch."""
    chance = random.Random(seed)
    with Connection(server.address) as connection:
        clients = [expect_success(connection.ask([HANDSHAKE]), 1)[0]["clientId"] for _ in range(2)] + ["x"]
    if kind in PIPELINED:
        run_pipelined(chance, server.address, clients, *PIPELINED[kind])
    elif kind in STREAMS:
        maker, count = STREAMS[kind]
        for _ in range(count):
            streams.end(chance, server.address, maker(chance, clients))
    else:
        streams.check_slow(chance, server.address)
    check_serves(server.address, "/right")


@pytest.mark.timeout(3600)
@pytest.mark.parametrize("seeds", [["1"], pytest.param([f"{SEED}/{it}" for it in range(BATCHES)], marks=pytest.mark.soak)], ids=["one", "many"])
@pytest.mark.parametrize("kind", [*PIPELINED, *STREAMS, "slow"])
def test_random_requests(daemon, clock_ahead, kind, seeds):
    """In the end, the daemon ends all connections, also those that clients left open."""
    server = daemon("--timeout", "200ms", "--max-interval", "2s", env=clock_ahead.env)
    check_serves(server.address, "/first")
    before = server.descriptors()
    for seed in seeds:
        try:
            run_batch(server, kind, seed)
        except Exception as error:
            raise AssertionError(f"the batch of GADZILK_SEED={seed}") from error
    clock_ahead.add(31)
    wait_until("all connections are ended", lambda: server.descriptors() <= before)
