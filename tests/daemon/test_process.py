"""What the metrics show of the process and its settings, and how many threads it has."""
import os
import pathlib
import resource
import time

import pytest

from base import read, wait_until
from daemon import AT_ONCE, check_serves, expect_status, post
from runs import ANYWHERE
from strace import NO_STRACE, STRACE, can_trace, start_traced

# How much the metrics of memory may differ from what the system reports shortly afterwards, in bytes, or a tenth if that is more.
MEMORY_CHANGE = 64 << 20
# More files than some systems list in one call.
MANY_FILES = 400
# Files in /proc as they may be on a machine with thousands of processors and interrupts (proc(5)), and the metrics of them. The
# processor time is 12.34 + 5.67 seconds. The process started 8.9 seconds after the machine.
STAT_FIELDS = {14: 1234, 15: 567, 22: 890, 23: 5 << 40, 24: 6 << 30}
PROC_FILES = {
    "self/stat": f"4194304 (a) R 1 (b 2) S {' '.join(str(STAT_FIELDS.get(it, 2**64 - 1)) for it in range(4, 53))}\n",
    "self/limits": "".join(
        f"Max {it:<22}{1_000_000:<21}{2_000_000:<21}files\n" for it in (*("other files",) * 1000, "open files", "file locks")
    ),
    "stat": "".join(f"cpu{it} {'1234567890 ' * 10}\n" for it in range(4096))
    + f"intr 1{' 0' * 100_000}\nctxt 1\nbtime 1700000000\nprocesses 1\n",
}
PROC_VALUES = {
    **{"process_cpu_seconds_total": 18.01, "process_resident_memory_bytes": (6 << 30) * 4096, "process_virtual_memory_bytes": 5 << 40},
    **{"process_max_fds": 1_000_000, "process_start_time_seconds": 1700000008.9},
}


def process_metrics(server):
    """Returns the metrics of the process of `server`, by name."""
    return {name: value for (name, _), value in server.scrape().items() if name.startswith("process_")}


def test_metrics_show_the_version_and_the_times(daemon):
    """tests/daemon/test_flags.py looks at the limits."""
    server = daemon("--timeout=1500ms", "--interval=2s", "--max-interval=4294967295")
    times = {(f"bayeux_{name}_seconds", ""): value for name, value in (("timeout", 1.5), ("interval", 2), ("max_interval", 4294967.295))}
    server.expect({("bayeux_build_info", f'{{version="{read("VERSION").strip()}"}}'): 1, **times})


def test_metrics_show_the_start_and_the_limit_of_files(daemon):
    """But no limit that is not given."""
    before, server, after = time.time(), daemon(), time.time()
    found = process_metrics(server)
    # The system has the start of the machine in whole seconds.
    assert before - 2 <= found["process_start_time_seconds"] <= after + 2
    assert found["process_max_fds"] == resource.prlimit(server.process.pid, resource.RLIMIT_NOFILE)[0]
    assert ("bayeux_limit", '{name="bytes"}') not in server.scrape()


def test_metrics_show_the_memory(daemon):
    """It still changes while threads begin to work."""
    server = daemon()

    def are_near():
        found = process_metrics(server)
        status = dict(line.split(":", 1) for line in server.proc("status").splitlines())
        sizes = {name: 1024 * int(status[line].split()[0]) for name, line in (("resident", "VmRSS"), ("virtual", "VmSize"))}
        return all(abs(found[f"process_{name}_memory_bytes"] - size) <= max(MEMORY_CHANGE, size // 10) for name, size in sizes.items())

    wait_until("the metrics of memory are near those of /proc", are_near)


def test_metrics_count_all_open_files(daemon, client):
    server = daemon()
    for _ in range(MANY_FILES):
        client(server)
    # The metrics also count the connection that asks for them.
    wait_until("the number of open files", lambda: process_metrics(server)["process_open_fds"] == server.descriptors() + 1 > MANY_FILES)


def test_processor_time_is_that_of_all_threads(daemon, client):
    """The metrics show hundredths of a second."""
    server = daemon()
    connection, until = client(server), server.processor_seconds() + 0.1
    while (used := server.processor_seconds()) < until:
        for _ in connection.repeat(post(b"[]"), AT_ONCE):
            pass
    assert used <= process_metrics(server)["process_cpu_seconds_total"] <= server.processor_seconds()


@pytest.mark.parametrize("files, values", [({}, {}), (PROC_FILES, PROC_VALUES)], ids=["missing", "long"])
def test_metrics_show_what_can_be_read_of_the_process(daemon, system, tmp_path, files, values):
    proc = pathlib.Path(tmp_path, "proc")
    (proc / "self").mkdir(parents=True)
    server = daemon(env=system(PROC=str(proc)))
    for name, text in files.items():
        (proc / name).write_text(text, encoding="ascii")
    found = process_metrics(server)
    found.pop("process_open_fds", None)
    assert found == values


def test_small_segments_are_sent_without_delay(daemon, client, tmp_path):
    if not can_trace():
        pytest.skip(NO_STRACE)
    trace = tmp_path / "trace"
    server = start_traced(daemon, [*STRACE, "-o", str(trace), "-e", "trace=setsockopt"])
    expect_status(client(server), post(b"[]"), 200)
    wait_until("the option of the connection", lambda: "TCP_NODELAY, [1]" in trace.read_text(encoding="ascii"))


PROCESSORS = len(os.sched_getaffinity(0))


@pytest.mark.parametrize("count", sorted({1, min(2, PROCESSORS), PROCESSORS}))
@pytest.mark.parametrize("shards", [None, 5])
def test_each_processor_has_a_shard_and_a_worker_thread(daemon, count, shards):
    allowed = sorted(os.sched_getaffinity(0))
    flags = ["--shards", str(shards)] if shards else []
    flags += [*ANYWHERE, "--metrics", "127.0.0.1:0", "--until-eof"]
    server = daemon(*flags, is_plain=True, preexec_fn=lambda: os.sched_setaffinity(0, allowed[:count]))
    check_serves(server.address, "/processors")
    assert f" shards={shards or min(64, count)} " in server.full_log().decode()
    # The others are the first, and those of ticks, metrics and standard input.
    wait_until("the number of threads", lambda: len(server.threads()) >= count + 4)
    # Each request gives a thread that starts late the time to do so.
    for _ in range(20):
        check_serves(server.address, "/processors")
    assert len(server.threads()) == count + 4
