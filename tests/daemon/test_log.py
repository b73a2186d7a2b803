"""The log: its times, priorities, levels and forms, what it counts once a second, and a log that cannot be written."""
import datetime
import json
import os
import re
import tempfile
import time

import pytest

from base import TIMEOUT_SECONDS
from daemon import HANDSHAKE, check_serves, expect_error, expect_status, expect_success, open_session, poll, post, subscribe
from documented import expect_documented
from runs import ANYWHERE, CANNOT_LISTEN, LOG_TIME, match, run, without_times

# Flags with which a daemon logs a warning, and its log: the priority of each line, and its text up to a value that differs.
WARNED = ["--timeout", "5ms"]
LINES = [
    (6, "[INFO  bayeuxd] starting listen=127.0.0.1:0 readers=- "),
    (4, '[WARN  bayeuxd] time is below one second timeout=5ms hint="for seconds, write 5s"'),
    (6, "[INFO  bayeuxd] listening address=127.0.0.1:"),
    (6, "[INFO  bayeuxd] ended"),
]
# An address of another machine.
ELSEWHERE = ["--readers", "192.0.2.1:0"]


@pytest.fixture
def log_of(program):
    """Runs daemons until their standard input ends, which is empty: `log_of(*flags, journal)` returns the lines on standard error.

    `journal`: a format of JOURNAL_STREAM for the device and the inode of standard error, or `None` for no such variable.
    """

    def log(*flags, journal=None):
        env = {name: value for name, value in os.environ.items() if name != "JOURNAL_STREAM"}
        with tempfile.TemporaryFile() as errors:
            if journal is not None:
                status = os.fstat(errors.fileno())
                env["JOURNAL_STREAM"] = journal.format(status.st_dev, status.st_ino)
            run(program, [*ANYWHERE, "--until-eof", *flags], stderr=errors, env=env)
            errors.seek(0)
            return errors.read().decode().splitlines()

    return log


def expect_times(texts, before):
    """Checks that each of `texts` begins with a time of UTC between `before` and now, in seconds. A time has milliseconds."""
    times = [datetime.datetime.strptime(f"{it[:23]}+0000", "%Y-%m-%dT%H:%M:%S.%f%z").timestamp() for it in texts]
    assert all(before - 0.001 < it < time.time() for it in times)


def test_line_begins_with_its_priority_in_the_journal(log_of):
    """Unless it is an object of JSON."""
    lines = log_of(*WARNED, journal="{}:{}")
    assert match(lines, [f"<{priority}>{re.escape(it)}.*" for priority, it in LINES]), lines
    lines = log_of(*ELSEWHERE, journal="{}:{}")[1:]
    assert match(lines, [r"<3>\[ERROR bayeuxd\] cannot listen address=192\.0\.2\.1:0 error=\".* .*\"", CANNOT_LISTEN]), lines
    for line, (_, text) in zip(log_of(*WARNED, "--log", "json", journal="{}:{}"), LINES, strict=True):
        assert line.startswith("{") and json.loads(line)["event"] in text


@pytest.mark.parametrize("journal", [None, "{1}:{0}", "{}:{}0", "{}:{} ", "1{}:{}", "0:{1}", "{0}:0", "0:0", ""])
def test_line_begins_with_its_time_if_the_journal_is_another_file(log_of, journal):
    before = time.time()
    lines = log_of(*WARNED, journal=journal)
    assert match(lines, [f"{LOG_TIME} {re.escape(it)}.*" for _, it in LINES]), lines
    expect_times(lines, before)


def test_log_of_json_has_the_keys_and_values_of_a_text(log_of, tmp_path):
    before = time.time()
    path = f'{tmp_path}/a "b" \\c\n\x01\u00e4'
    flags = ["--readers", "localhost:0", "--readers-publish", "/a", "--readers-publish", "/b/*", "--metrics", "localhost:0", *WARNED]
    texts = without_times(log_of(*flags, "--record", f"{tmp_path}/record"))
    lines = [json.loads(it, object_pairs_hook=list) for it in log_of(*flags, "--log", "json", "--record", path)]
    assert len(lines) == len(texts)
    for text, pairs in zip(texts, lines):
        level, event, rest = re.fullmatch(r"\[(\w+) +bayeuxd\] ([^=]*?)((?: \w+=.*)?)", text).groups()
        assert [key for key, _ in pairs] == ["time", "level", "event", *re.findall(r" (\w+)=", rest)]
        assert pairs[1:3] == [("level", level.lower()), ("event", event)]
        assert re.fullmatch(LOG_TIME, pairs[0][1]) and all(isinstance(value, str) for _, value in pairs)
    expect_times([pairs[0][1] for pairs in lines], before)
    logged = {pairs[2][1]: dict(pairs) for pairs in lines}
    for event, values in {
        "starting": {"timeout": "5ms", "max_interval": "10s", "readers_publish": "/a,/b/*", "record": path, "until_eof": "true"},
        "time is below one second": {"level": "warn", "timeout": "5ms", "hint": "for seconds, write 5s"},
        "recording started": {"level": "info", "file": path},
    }.items():
        assert {key: logged[event].get(key) for key in values} == values


@pytest.mark.parametrize("level, lines, count", [("info", LINES, 3), ("warn", LINES[1:2], 2), ("error", [], 2)])
def test_level_leaves_out_less_severe_lines(log_of, level, lines, count):
    found = without_times(log_of(*WARNED, "--log-level", level))
    assert match(found, [f"{re.escape(it)}.*" for _, it in lines]), found
    found = log_of("--log-level", level, "--log=json", *ELSEWHERE)
    assert (json.loads(found[-2])["level"], len(found)) == ("error", count)


def test_errors_in_a_log_of_json_are_objects(program, tmp_path):
    """The daemon cannot create its record, and says why."""
    (tmp_path / "record").touch()
    status, _, errors = run(program, [*ANYWHERE, "--log", "json", "--record", str(tmp_path / "record")])
    found = [json.loads(it) for it in errors.splitlines()]
    assert (status, [it["level"] for it in found[-3:]]) == (1, ["error"] * 3)
    assert found[-1]["event"] == "bayeuxd: a record needs a new file: name another one, or move this one away"


@pytest.mark.parametrize("form", ["text", "json"])
def test_daemon_that_cannot_write_its_log_serves(daemon, form):
    with open("/dev/full", "wb") as full:
        server = daemon("--log", form, stderr=full)
    check_serves(server.address, "/full")
    server.process.stdin.close()
    assert server.process.wait(TIMEOUT_SECONDS) == 0


def test_requests_are_rejected_as_before_while_nobody_reads_the_log(daemon, client, ticks):
    """The thread of ticks writes the log of rejected requests. It waits for the log, or writes it for thirty ticks."""
    read_end, write_end = os.pipe()
    server = daemon(stderr=write_end, env=ticks.env)
    server.errors.write(os.read(read_end, 1 << 16))
    server.errors.flush()
    with open(os.open(f"/proc/self/fd/{write_end}", os.O_WRONLY | os.O_NONBLOCK), "wb", buffering=0) as pipe:
        while pipe.write(b"x"):
            pass
    connection = client(server)
    still = 0
    for _ in range(30):
        expect_status(connection, post(b"["), 400)
        begun, end = ticks.begun(), time.monotonic() + 0.3
        ticks.add(0.1)
        while ticks.begun() == begun and time.monotonic() < end:
            time.sleep(0.001)
        # If the thread waits for the log, no tick follows.
        still = still + 1 if ticks.begun() == begun else 0
        if still == 5:
            break
    expect_status(connection, post(b"["), 400)
    server.scrape()
    server.kill()
    os.close(read_end)
    os.close(write_end)


WATCHED = "/watched"


def overflow(connection):
    """Opens a session and overflows it: two events for it wait, of which it may have one."""
    session = open_session(connection)
    subscribe(connection, WATCHED, session)
    expect_success(connection.ask([{"channel": WATCHED, "data": data, **session} for data in (1, 2)]), 2)
    expect_error(poll(connection, session), "413::Queue overflow")
    expect_success(connection.ask([{"channel": "/meta/disconnect", **session}]), 1)


def reject_handshake(connection):
    """Opens a session, which then cannot be followed by another, and ends it."""
    session = open_session(connection)
    expect_error(connection.ask([HANDSHAKE]), "503::Too many sessions")
    expect_success(connection.ask([{"channel": "/meta/disconnect", **session}]), 1)


def counted_lines(server):
    """Returns the counts in the log of `server`, in order, by the text before them."""
    found = {}
    for text, count in re.findall(r"^(.*) count=([0-9]+)$", "\n".join(server.logged("WARN")), re.MULTILINE):
        found.setdefault(text, []).append(int(count))
    return found


def test_log_counts_once_a_second_and_each_case_once(daemon, client, ticks):
    """A second has ten ticks, which happen one by one here."""
    server = daemon("--limit", "1", "--sessions", "1", "--readers", "127.0.0.1:0", env=ticks.env)
    connection, reader = client(server), client(server.readers)
    # The daemon logs at the first tick of each second.
    ticks.tick(10)
    texts = [f'requests failed reason="the messages are not JSON" listener={it}' for it in ("main", "read-only")]
    for number in range(1, 4):
        for _ in range(number):
            for it in (connection, reader):
                assert [response.status for response in it.repeat(post(b"["), 10)] == [400] * 10
            overflow(connection)
            reject_handshake(connection)
        before = counted_lines(server)
        ticks.tick(9)
        assert counted_lines(server) == before, "more than a line a second"
        ticks.tick()
        counts = {text: [10 * it for it in range(1, number + 1)] for text in texts}
        several = list(range(1, number + 1))
        assert counted_lines(server) == {**counts, "sessions overflowed": several, "handshakes rejected": several}
    expect_documented(server.full_log())


LAST = {"--limit": (overflow, "sessions overflowed"), "--sessions": (reject_handshake, "handshakes rejected")}


@pytest.mark.parametrize("flag", LAST)
def test_log_counts_what_happens_directly_before_the_end(daemon, client, ticks, flag):
    server, (cause, text) = daemon(flag, "1", env=ticks.env), LAST[flag]
    # The daemon may still log at its first tick, which it does not wait for.
    ticks.tick(10)
    with client(server) as connection:
        for _ in range(3):
            cause(connection)
        ticks.tick(10)
        assert counted_lines(server) == {text: [3]}
        cause(connection)
    server.process.stdin.close()
    server.let_end(ticks)
    assert counted_lines(server) == {text: [3, 1]}
    expect_documented(server.full_log())
