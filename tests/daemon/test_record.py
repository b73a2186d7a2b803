"""The record of a daemon: when it is written, what its end has, and what a daemon without room for it keeps."""
import hashlib
import json
import os
import re

import pytest

from base import TIMEOUT_SECONDS, limit_file_size, wait_until
from daemon import CONNECT, MOST_MESSAGES, OWN_PAGES, expect_status, expect_success, open_session, post, publish, subscribe
from documented import expect_documented
from strace import NO_STRACE, STRACE, can_trace, start_traced

RECORDING, RECORDED = ("bayeux_recording", ""), ("bayeux_record_bytes_total", "")
# A body of the largest allowed size. Its line in a record has more than a MiB.
LARGEST = b'[{"channel":"/large","data":"%s"}]' % (b"x" * ((1 << 20) - 32))
# Of the daemons that end directly after a publish, half would lose it if the record lacked its last tenth of a second.
ENDS = 12


def test_record_is_written_ten_times_a_second(daemon, tmp_path):
    """With each tenth look of its thread, which sleeps for a hundredth of a second between two looks."""
    if not can_trace():
        pytest.skip(NO_STRACE)
    trace = tmp_path / "trace"
    calls = ["-y", "-e", "trace=write,clock_nanosleep"]
    server = start_traced(daemon, [*STRACE, "-o", str(trace), *calls], "--record", str(tmp_path / "record"))

    def sleeps():
        """Returns how many sleeps are before each write of the record's thread."""
        lines = [it.split(maxsplit=2) for it in trace.read_text(encoding="utf-8", errors="replace").splitlines() if "resumed>" not in it]
        writes = [thread for thread, _, call in lines if re.match(r"write\(\d+<[^>]*/record>", call)]
        if not writes:
            return []
        own = [call for thread, _, call in lines if thread == writes[-1] and re.match(r"write.*/record>|clock_nanosleep.*\b0*10000000}", call)]
        return [len(it) for it in re.findall("(s+)w", "".join("w" if it.startswith("write") else "s" for it in own))]

    found = wait_until("some writes", lambda: len(sleeps()) >= 5 and sleeps())
    server.close()
    assert min(found) == 10, found


def test_record_has_requests_that_arrive_faster_than_they_are_written(daemon, client, tmp_path):
    """They have over a MiB in total, and one has 256 messages. The record has the digests of the largest answers."""
    path = tmp_path / "record"
    server = daemon("--anonymous", "--record", str(path), "--record-answers")
    connections = [client(server) for _ in range(4)]
    for connection in connections:
        connection.send(post(LARGEST))
    for connection in connections:
        expect_success(connection.response().items(), 1)
    session = open_session(connections[0])
    subscribe(connections[0], "/*", session)
    many = [{"channel": "/many", "data": number} for number in range(MOST_MESSAGES)]
    answers = [expect_status(connections[0], post(json.dumps(it).encode()), 200) for it in (many, [{**CONNECT, **session}])]
    publish(connections[0], "/last", 1, {})
    server.process.stdin.close()
    server.process.wait(TIMEOUT_SECONDS)
    text = path.read_bytes()
    assert [text.count(b" %s\n" % hashlib.sha256(it).hexdigest().encode()) for it in answers] == [1, 1]
    assert len(json.loads(answers[1])) == MOST_MESSAGES + 1
    assert [text.count(it) for it in (LARGEST, b'"/many"', b'"/last"')] == [4, MOST_MESSAGES, 1]


@pytest.mark.parametrize("number", range(ENDS))
def test_record_has_a_publish_directly_before_the_end(daemon, client, tmp_path, number):
    """Without --record-answers, it has no digest of an answer."""
    path = tmp_path / "record"
    server = daemon("--anonymous", "--connections", "1", "--record", str(path))
    with client(server) as connection:
        publish(connection, "/closing", number, {})
    server.expect_end()
    expect_documented(server.full_log())
    text = path.read_bytes()
    assert b'"/closing"' in text
    assert b"\nA " not in text


def test_record_ends_before_its_greatest_size(daemon, client, tmp_path):
    """With a whole line. The server goes on, and its metrics say how long the record is."""
    path = tmp_path / "record"
    server = daemon("--anonymous", "--record", str(path), "--record-bytes", "1k")
    server.expect({RECORDING: 1, RECORDED: path.stat().st_size})
    connection = client(server)
    for at in range(20):
        expect_success(connection.ask([{"channel": "/a", "data": f"{at:080}"}]), 1)
    server.wait_for_log("recording ended early")
    text = path.read_bytes()
    assert len(text) <= 1024 and text.endswith(b"\n")
    server.expect({RECORDING: 0, RECORDED: len(text)})
    expect_success(connection.ask([{"channel": "/a", "data": 1}]), 1)


@pytest.mark.proved
@pytest.mark.alone
def test_daemon_that_cannot_write_its_record_keeps_nothing_for_it(daemon, client, ticks, tmp_path):
    """Without the end of the record, 64 MiB may wait, and a line of at least 69 bytes for each small body."""
    flags = ["--anonymous", "--record", str(tmp_path / "record"), "--record-answers"]
    server = daemon(*flags, env={**ticks.env, **OWN_PAGES}, preexec_fn=lambda: limit_file_size(50_000))
    connection = client(server)

    def send_largest(count):
        """Sends `count` bodies of the largest allowed size, each followed by a tick that trims the window."""
        for _ in range(count):
            connection.send(post(LARGEST))
            expect_success(connection.response().items(), 1)
            ticks.tick()

    def send_small(count):
        for _ in connection.repeat(post(b'[{"channel":"/small"}]'), count):
            pass

    send_largest(1)
    server.wait_for_log("recording ended early")
    expect_documented(server.full_log())
    # Before each measurement, such requests are sent, so that the daemon has the memory that they need.
    for send, first, count, most in ((send_largest, 24, 24, 16 << 10), (send_small, 10_000, 30_000, 1 << 10)):
        send(first)
        before = server.kilobytes()
        send(count)
        assert server.kilobytes() - before <= most, f"KiB for {count} requests"
    assert os.stat(tmp_path / "record").st_size <= 50_000
