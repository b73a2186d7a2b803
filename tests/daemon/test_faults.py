"""System calls that fail while clients use a daemon, so that they must lose no event, and while a daemon starts."""
import contextlib
import os
import re
import resource
from collections import namedtuple

import pytest

from base import TIMEOUT_SECONDS, wait_until
from daemon import ConnectionEnded, check_serves, has_sanitizer, with_sanitizer_options
from runs import ANYWHERE, faults, match, run, without_times
from strace import NO_STRACE, can_trace, failing, injected, start_traced
from subscriber import Publisher, Subscriber, check_events

# A fault: the arguments of `failing`, how many calls must have failed, and whether only calls on the record fail.
Fault = namedtuple("Fault", "calls error when count is_record", defaults=(8, False))
FAULTS = [
    *(Fault("accept4", it, "4..23") for it in ("EMFILE", "ENFILE", "ECONNABORTED", "ENOMEM", "EPERM")),
    *(Fault("recvfrom", it, "9+7") for it in ("ECONNRESET", "ETIMEDOUT", "ENOMEM")),
    *(Fault("sendto", it, "9+7") for it in ("EPIPE", "ECONNRESET", "ENOBUFS")),
    *(Fault("epoll_ctl", it, "9+7") for it in ("ENOMEM", "ENOSPC")),
    Fault("epoll_wait", "EINTR", "9+3"),
    Fault("setsockopt", "ENOMEM", "4+3"),
    # The record is written in turn with the digests of answers, so that one of these calls writes digests.
    *(Fault("write", error, when, 1, True) for error, when in (("ENOSPC", "20"), ("EIO", "21"))),
    Fault("write", "EINTR", "3+2", 8, True),
]
MORE_FAULTS = [Fault(calls, "EINTR", "9+7") for calls in ("accept4", "recvfrom", "sendto", "setsockopt", "epoll_ctl")]
MORE_FAULTS += [Fault(*it, "9+2") for it in (("accept4", "EMFILE"), ("recvfrom", "EIO"), ("sendto", "ENOMEM"), ("epoll_ctl", "EPERM"))]
FLAGS = ["--listen", "127.0.0.1:0", "--timeout", "1s", "--limit", "65536", "--record-answers"]
# The numbers of publishers and of subscribers, and how many events of each publisher must have a response.
PUBLISHERS, SUBSCRIBERS, EVENTS, MANY_EVENTS = 2, 3, 20, 400
# The most failed accepts a second.
ACCEPTS = 200
# If memory runs out: the most bytes of data, which are fewer than the daemon has, and the bytes of an event for which it needs more.
LEAST, LARGE = 4096, 600_000


@pytest.fixture(scope="module", autouse=True)
def needs_strace():
    if not can_trace():
        pytest.skip(NO_STRACE)


def check_record(server, record, end="recording complete bytes={}"):
    """Ends the daemon. Its log must then have the line `end`, a pattern, with the size of the record."""
    server.close()
    assert any(re.fullmatch(end.format(record.stat().st_size), it) for it in server.logged())


def is_served(server):
    """Returns whether the daemon serves a new client, and does not end its connection."""
    with contextlib.suppress(ConnectionEnded):
        check_serves(server.address, "/new")
        return True
    return False


def serve_clients(server, count, until):
    """Runs clients until `until(publishers)` is true, and then `count` events of each publisher have a response. Checks their events."""
    subscribers = [Subscriber(server.address, "/fault/*") for _ in range(SUBSCRIBERS)]
    publishers = [Publisher(server.address, f"/fault/{it}") for it in range(PUBLISHERS)]
    clients = [*publishers, *subscribers]

    def wait(what, condition):
        """Waits for a condition, or until a client or the daemon fails."""
        is_over = lambda: server.check_alive() or any(it.wrong for it in clients) or condition()  # noqa: E731
        wait_until(what, is_over, 5 * TIMEOUT_SECONDS)

    for it in clients:
        it.start()
    try:
        wait("calls have failed", lambda: until(publishers))
        wait(f"{count} events of each publisher have a response", lambda: all(len(it.answered) >= count for it in publishers))
    finally:
        # A subscriber fetches what is left only after all events.
        for it in publishers:
            it.is_over.set()
    for it in clients:
        it.finish()
    check_events(publishers, subscribers)


def check_service(server, count, until):
    """Checks that clients lose no event until `until`, that the daemon then serves a new one, and that it rests with no more descriptors."""
    wait_until("the first client is served", lambda: is_served(server))
    before = server.descriptors()
    serve_clients(server, count, until)
    wait_until("a new client is served", lambda: is_served(server))
    wait_until(f"at most {before} descriptors are open", lambda: server.descriptors() <= before)
    server.wait_until_idle("clients")


@pytest.mark.timeout(600)
@pytest.mark.parametrize("count", [EVENTS, pytest.param(MANY_EVENTS, marks=pytest.mark.soak)])
@pytest.mark.parametrize(
    "fault", [*FAULTS, *(pytest.param(it, marks=pytest.mark.soak) for it in MORE_FAULTS)], ids=lambda it: f"{it.calls}-{it.error}-{it.when}"
)
def test_clients_lose_no_event_if_calls_fail(daemon, tmp_path, fault, count):
    """The log says why a record ended early, and how many bytes it has. A call that was only interrupted does not end it."""
    record, calls = tmp_path / "record", tmp_path / "calls"
    before = failing(fault.calls, fault.error, fault.when, calls, record if fault.is_record else "")
    server = start_traced(daemon, before, *FLAGS, "--record", str(record))
    check_service(server, count, lambda _: len(injected(calls)) >= fault.count)
    if fault.calls == "accept4":
        times = injected(calls)
        assert len(times) <= ACCEPTS * (times[-1] - times[0]) + 1
    ends_early = fault.is_record and fault.error != "EINTR"
    check_record(server, record, **({"end": 'recording ended early bytes={} reason=".+"'} if ends_early else {}))


def test_clients_lose_no_event_if_memory_runs_out(daemon, program, tmp_path):
    """The system gives the daemon no more memory until some large publishes have failed."""
    if has_sanitizer(program):
        pytest.skip("AddressSanitizer ends a program without memory")
    record = tmp_path / "record"
    server = daemon(*FLAGS, "--record", str(record))

    def limit(publishers, size, text):
        resource.prlimit(server.process.pid, resource.RLIMIT_DATA, (size, resource.RLIM_INFINITY))
        for it in publishers:
            it.text = text

    def have_failed(publishers):
        limit(publishers, LEAST, "x" * LARGE)
        is_enough = sum(it.sent - len(it.answered) for it in publishers) >= 8
        if is_enough:
            limit(publishers, resource.RLIM_INFINITY, "")
        return is_enough

    check_service(server, EVENTS, have_failed)
    check_record(server, record)


NO_THREAD = [r'\[ERROR bayeuxd\] cannot serve error=".+"', "bayeuxd: cannot serve"]
OUT_OF_MEMORY = "bayeuxd: out of memory"
NO_SEED = [
    r'\[ERROR bayeuxd\] cannot read the seed at="the operating system" error=".+"',
    "bayeuxd: cannot read the seed at the operating system: .+",
]
NO_LISTENER = [r'\[ERROR bayeuxd\] cannot listen address=127\.0\.0\.1:0 error=".+"', OUT_OF_MEMORY]
NO_METRICS = [r'\[ERROR bayeuxd\] cannot listen for metrics at=127\.0\.0\.1:0 error=".+"', OUT_OF_MEMORY]
METRICS = ["--metrics", "127.0.0.1:0"]


@pytest.mark.parametrize(
    "call, error, when, flags, wanted",
    [
        ("getrandom", "EIO", "1+", [], NO_SEED),
        ("getrandom", "ENOSYS", "1+", [], NO_SEED),
        ("clone3", "EAGAIN", "1", [], ["bayeuxd: cannot read standard input"]),
        ("clone3", "EAGAIN", "2", [], NO_THREAD),
        # The threads of standard input, of metrics, of the record, and of ticks are followed by those that serve connections.
        *(("clone3", "EAGAIN", it, [*METRICS, "--record", "RECORD"], NO_THREAD) for it in ("2", "3", "4")),
        ("socket", "ENOMEM", "1", [], NO_LISTENER),
        ("socket", "ENOMEM", "2", METRICS, NO_METRICS),
    ],
    ids=lambda it: str(len(it)) if isinstance(it, list) else it,
)
def test_starting_daemon_ends_if_a_call_fails(program, tmp_path, call, error, when, flags, wanted):
    flags = [it.replace("RECORD", str(tmp_path / "record")) for it in flags]
    command = [*failing(call, error, when), program, *ANYWHERE, "--until-eof", *flags]
    status, output, errors = run(command[0], command[1:], env=with_sanitizer_options("allocator_may_return_null=1"))
    assert (status, output) == (1, "") and match(faults(errors), wanted), errors


@pytest.mark.parametrize("variables, start", [({"JOURNAL_STREAM": "1:2"}, "<6>["), ({}, "[INFO")], ids=["journal", "no journal"])
def test_starting_daemon_cannot_look_at_standard_error(program, variables, start):
    """It then takes standard error for the journal if JOURNAL_STREAM is set."""
    command = [*failing("statx", "EACCES", "1+", path="/proc/self/fd/2"), program, *ANYWHERE, "--until-eof"]
    env = {name: value for name, value in os.environ.items() if name != "JOURNAL_STREAM"}
    status, _, errors = run(command[0], command[1:], env={**env, **variables})
    lines = without_times(errors.splitlines())
    assert status == 0 and len(lines) >= 3 and all(it.startswith(start) for it in lines), errors
