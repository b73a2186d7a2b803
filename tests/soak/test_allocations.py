"""Each memory allocation of a daemon fails in turn: at most one request fails, no event is lost, and the daemon serves on."""
import bisect
import os

import pytest

from base import compile_library, has_compiler, wait_until
from bayeuxd import Bayeuxd
from daemon import SEED, check_serves, has_sanitizer
from subscriber import Publisher, Subscriber, check_events

# All allocations were tried if this many in turn did not happen. One is not enough, because ticks allocate too.
QUIET_RUNS = 5
# How many events must have a response.
EVENTS = 3


@pytest.fixture
def run(program, tmp_path):
    """Runs a daemon with two clients, in which an allocation fails: `run(call)`. `call`: its number, from 1.

    Returns how many requests failed, "early" if the allocation failed before the daemon listened, and "late" if it was not made.
    """
    if has_sanitizer(program):
        pytest.skip("AddressSanitizer ends a program without memory")
    if not has_compiler():
        pytest.skip("there is no C compiler")
    met, library, seed = tmp_path / "met", compile_library("tests/refusals/refuse.c", tmp_path), tmp_path / "seed"
    seed.write_text(SEED)

    def serve(server):
        try:
            server.wait()
        except AssertionError:
            return "early"
        if met.exists():
            return "early"
        publisher, subscriber = Publisher(server.address, "/refused/x"), Subscriber(server.address, "/refused/*")
        for it in (subscriber, publisher):
            it.start()
        wait_until("events have a response", lambda: publisher.wrong or subscriber.wrong or len(publisher.answered) >= EVENTS)
        for it in (publisher, subscriber):
            it.finish()
        check_events([publisher], [subscriber])
        failed = publisher.failed + subscriber.failed
        if not met.exists():
            return "late"
        check_serves(server.address, "/new")
        assert failed <= 1
        return failed

    def do_run(call):
        met.unlink(missing_ok=True)
        env = {**os.environ, "LD_PRELOAD": library, "REFUSE": str(call), "REFUSE_MET": str(met)}
        server = Bayeuxd(program, tmp_path / "log", "--listen", "127.0.0.1:0", "--timeout", "100ms", "--seed-file", str(seed), env=env)
        try:
            return serve(server)
        finally:
            server.kill()
            server.end()

    return do_run


@pytest.mark.soak
@pytest.mark.timeout(3600)
def test_each_allocation_fails_in_turn(run):
    first, results = max(1, bisect.bisect(range(1 << 16), False, key=lambda it: run(it) != "early") - QUIET_RUNS), []
    while results[-QUIET_RUNS:] != ["late"] * QUIET_RUNS:
        results.append(run(first + len(results)))
    print({it: results.count(it) for it in set(results)})
    assert 1 in results
