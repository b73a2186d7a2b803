"""Flags and positional arguments: their values and warnings in the log, wrong ones, the help, and all of them together."""
import json
import os
import re
import subprocess

import pytest

from base import TIMEOUT_SECONDS, limit_file_size, read, readable
from chacha import drawn
from daemon import HANDSHAKE, MORE_MESSAGES, SEED, expect_error, expect_events, expect_status, expect_success, get, open_session, poll, post, publish
from daemon import subscribe
from documented import ADDRESSES, FLAGS, GREATEST, SWITCHES, TIMES, VALUES
from runs import ANYWHERE, cannot, faults, match, no_place, run, without_times

# What the log has of settings that are off, and of those that the log leaves out. The log has the others as the page has them.
OFF = {"record-answers": "false", "until-eof": "false", "ride": "false", "anonymous": "false", "bytes": "no-limit", "record-bytes": "no-limit"}
UNLOGGED = {"readers-publish", "seed-file", "log", "log-level"}
# The settings in the log of a daemon whose flags change none.
DEFAULTS = {
    **{name.replace("-", "_"): OFF.get(name, "-" if it[1] == "off" else it[1]) for name, it in FLAGS.items() if name not in UNLOGGED},
    "shards": str(min(64, len(os.sched_getaffinity(0)))),
}
del DEFAULTS["no_callback_polling"]
DEFAULTS["callback_polling"] = "true"
# Values of flags, with those in the log if they differ: VALUE=LOGGED.
LOGGED = {
    **dict.fromkeys(ADDRESSES, "localhost:0 [::1]:0 127.0.0.1:65535 [::1]:1"),
    **dict.fromkeys(TIMES, "0 0s=0 1ms 500ms 999ms 1000=1s 1500=1500ms 7s 3000ms=3s 4294967s 4294967295=4294967295ms"),
    **{"shards": "1 3 64", "limit": "1 5 2k=2048 65536", "bytes": "1 6 4095m=4293918720 4294967295", "record": "one"},
    **{"patterns": "1 1023 1024", "sessions": "1 8 32k=32768 65536", "body": "1 9 64k=65536 1m=1048576 1048576", "messages": "1 32 256"},
    **{"connections": "1 4 4294967296 18446744073709551615", "record-bytes": "1 10k=10240 17592186044416"},
}
# Flags, and the settings that they change.
SETTINGS = [
    ([f"--{name}", value], {name.replace("-", "_"): logged or value})
    for name, values in LOGGED.items()
    for value, _, logged in (it.partition("=") for it in values.split())
]
# A flag that needs another one.
for given, settings in SETTINGS:
    if given[0] == "--record-bytes":
        given.append("--record=three")
        settings["record"] = "three"
SETTINGS += [([f"--{name}"], {name.replace("-", "_"): "true"}) for name in ("until-eof", "ride", "anonymous")]
SETTINGS += [
    (["--no-callback-polling"], {"callback_polling": "false"}),
    (["--readers", "localhost:0", "--readers-publish", "/hall"], {"readers": "localhost:0", "readers_publish": "/hall"}),
    (["--figures", "localhost:0"], {"metrics": "localhost:0"}),
    (["--record-answers", "--record=two"], {"record": "two", "record_answers": "true"}),
    (
        ["[::1]:0", "7", "1", "2000", "4294967295", SEED, "18446744073709551615", "ra", "65536"],
        {
            **{"listen": "[::1]:0", "shards": "7", "timeout": "1ms", "interval": "2s", "max_interval": "4294967295ms"},
            **{"connections": "18446744073709551615", "ride": "true", "anonymous": "true", "limit": "65536"},
        },
    ),
]


def test_documented_ranges_are_tested():
    assert all(LOGGED[name].split()[-1] == str(greatest) for name, greatest in GREATEST.items())
    assert ({*TIMES}, {*ADDRESSES}) == ({"timeout", "interval", "max-interval"}, {"listen", "readers", "metrics"})


def name_of(case):
    """Returns a list of flags as the name of a test."""
    return " ".join(map(str, case)) if isinstance(case, list) else ""


@pytest.mark.parametrize("flags, changed", SETTINGS, ids=name_of)
def test_log_has_the_settings(program, flags, changed, tmp_path):
    how = {"stdin": subprocess.DEVNULL, "stdout": subprocess.DEVNULL, "stderr": subprocess.PIPE, "text": True, "cwd": tmp_path}
    with subprocess.Popen([program, *flags], **how) as process:
        line = process.stderr.readline() if readable(process.stderr, seconds=TIMEOUT_SECONDS) else ""
        process.kill()
    assert dict(re.findall(r"(\w+)=(\S+)", line)) == {**DEFAULTS, **changed}


def below_second(name, milliseconds):
    """Returns the warning of a time below a second."""
    return f'time is below one second {name}={milliseconds}ms hint="for seconds, write {milliseconds}s"'


def sessions_end(interval, max_interval):
    """Returns the warning that sessions end between two connects."""
    return f'sessions end between two connects interval={interval} max_interval={max_interval} hint="raise --max-interval"'


WARNINGS = [
    ([], []),
    (["--interval", "5s", "--max-interval", "5s"], [sessions_end("5s", "5s")]),
    (["--interval", "5s", "--max-interval", "4s"], [sessions_end("5s", "4s")]),
    (["--interval", "5s", "--max-interval", "5001"], []),
    (["--interval", "0", "--max-interval", "0"], []),
    (["--interval", "500ms", "--max-interval", "1000"], []),
    (["--timeout", "1ms"], [below_second("timeout", 1)]),
    (["--timeout", "999ms"], [below_second("timeout", 999)]),
    (["--timeout", "1s"], []),
    (["--timeout", "0"], []),
    (
        ["--timeout", "5ms", "--interval", "6ms", "--max-interval", "6ms"],
        [below_second("timeout", 5), below_second("max_interval", 6), sessions_end("6ms", "6ms")],
    ),
]


@pytest.mark.parametrize("flags, warnings", WARNINGS, ids=name_of)
def test_log_warns_of_unusual_times(daemon, flags, warnings):
    assert daemon(*flags).logged("WARN") == warnings


# What wrong flags are expected to have in place of their values.
TIME, ADDRESS = "a time such as 500ms or 30s, up to 4294967295ms", "a host and a port such as 127.0.0.1:8087"
PATTERN, OTHER_THAN = "a pattern of channels such as /chat/*", "an address other than that of --"
WRONG_TIMES = ("3m", "4294967296", "4294968s", "s", "ms", "-1", "+5", "5 s", "5S", "1.5s", "1h", "1k", "")
WRONG_ADDRESSES = (
    *("127.0.0.1", "localhost", "127.0.0.1:", "127.0.0.1:65536", "127.0.0.1:70000", "127.0.0.1:x", "[::1]", ""),
    *(":8087", ":0", "http://127.0.0.1:8087", "//localhost:0"),
)
WRONG_COUNTS = ("0", "17179869184m", "x", "+1", "-1", "1s", "1K", "k", "0k", "")
# The flag that can be repeated, with the flag that it needs.
REPEATED, READERS = "readers-publish", ["--readers", "localhost:0"]


def wrong(names, expected, values, before=()):
    """Returns rows for `WRONG_FLAGS`: each of the flags `names` with each of `values`, after the flags `before`."""
    return [([*before, f"--{name}={it}"], f"--{name}: expected {expected}, got {it}\n") for name in names for it in values]


# Flags with which no daemon serves, and a part of what it prints on standard error.
WRONG_FLAGS = [
    *wrong(TIMES, TIME, WRONG_TIMES),
    *(row for it in ("1", "30", "999") for row in wrong(TIMES, f"a unit (write {it}s or {it}ms)", [it])),
    *wrong(ADDRESSES, ADDRESS, WRONG_ADDRESSES),
    *wrong(["readers", "metrics"], f"{OTHER_THAN}listen", ["[::1]:8087"], ["--listen", "[::1]:8087"]),
    *wrong(["readers"], f"{OTHER_THAN}listen", ["127.0.0.1:8087"]),
    *wrong(["metrics"], f"{OTHER_THAN}readers", ["[::1]:1"], ["--readers", "[::1]:1"]),
    *wrong([REPEATED], PATTERN, ["hall"], [*READERS, "--readers-publish", "/hall"]),
    *wrong([REPEATED], PATTERN, ["/*/hall"], READERS),
    *(
        row
        for name, most in GREATEST.items()
        for units in (" (units: k, m)" if most >= 1024 else "",)
        for before in (["--record=four"] if name == "record-bytes" else [],)
        for row in wrong([name], f"a number from 1 to {most}{units}", [*WRONG_COUNTS, str(most + 1), f"{(most >> 20) + 1}m"], before)
    ),
    *wrong(["body"], "a number from 1 to 1048576 (units: k, m)", ["2m", "1025k"]),
    *wrong(["connections"], "a number without a unit", ["x", "5k", "1m", "-1", "+1", "18446744073709551616", ""]),
    *wrong(["log"], "text or json", ["xml", "JSON", "jsons", ""]),
    *wrong(["log-level"], "error, warn or info", ["debug", "off", "warning", "INFO", ""]),
    (["--shard", "4"], "unexpected argument '--shard' found"),
    (["--ride", "x"], "unexpected argument 'x' found"),
    (["--readers-publish", "/hall"], "the following required arguments were not provided:\n  --readers <ADDRESS>"),
    *(([it], "the following required arguments were not provided:\n  --record <FILE>") for it in ("--record-answers", "--record-bytes=1")),
]
for name, argument in VALUES:
    twice = [([f"--{name}=1"] * 2, f"the argument '--{name} <{argument}>' cannot be used multiple times")]
    WRONG_FLAGS += [([f"--{name}"], f"a value is required for '--{name} <{argument}>'"), *(twice if name != REPEATED else [])]
for name in SWITCHES:
    WRONG_FLAGS += [([f"--{name}=yes"], f"unexpected value 'yes' for '--{name}' found")]
    WRONG_FLAGS += [([f"--{name}"] * 2, f"the argument '--{name}' cannot be used multiple times")]


@pytest.mark.parametrize("flags, message", WRONG_FLAGS, ids=name_of)
def test_wrong_flags_are_rejected(program, flags, message):
    # A daemon that accepts wrong flags then ends at once.
    ends = [] if any(it.startswith("--until-eof") for it in flags) else ["--until-eof"]
    status, output, errors = run(program, [*ends, *flags])
    assert (status, output, errors.startswith("error: ")) == (2, "", True)
    assert message in errors


USAGE = "usage: bayeuxd address shards timeout interval max_interval seed connections [options [limit]]\n"
# Positional arguments with which a daemon serves. A proof says which ones these are.
ARGUMENTS = ["127.0.0.1:0", "2", "30000", "0", "10000", SEED, "1"]
WRONG_ARGUMENTS = [[], ARGUMENTS[:1], ARGUMENTS[:-1], ["localhost:0", *ARGUMENTS[1:]], [*ARGUMENTS, "ra", "2", "2"], [b"\xff"]]


@pytest.mark.parametrize("arguments", WRONG_ARGUMENTS, ids=lambda it: f"{len(it)} {name_of(it)[:20]}")
def test_wrong_positional_arguments_print_the_usage(program, arguments):
    assert run(program, arguments) == (2, "", USAGE)


def test_stray_word_is_no_positional_argument(program):
    status, output, errors = run(program, ["serve"])
    assert (status, output) == (2, "") and errors.startswith("error: unexpected argument 'serve' found\n")


RECORD_EXISTS = "bayeuxd: a record needs a new file: name another one, or move this one away"
# Flags with which a daemon cannot start, and patterns of all lines on standard error that are no information.
FAULTS = [
    ([*ANYWHERE, "--seed-file", "/dev/null"], [*cannot("cannot read the seed", "/dev/null"), "bayeuxd: a seed has 64 hexadecimal digits"]),
    ([*ANYWHERE, "--record", "/dev/null"], [*cannot("cannot create the record", "/dev/null"), RECORD_EXISTS]),
    ([*ANYWHERE, "--record", "/dev/null/record"], cannot("cannot create the record", "/dev/null/record")),
]
# An address of another machine, and a host name that is not valid.
for it in ("192.0.2.1:0", "a..b:0"):
    FAULTS += [(["--listen", it], no_place(it)), ([*ANYWHERE, "--readers", it], no_place(it))]
    FAULTS += [([*ANYWHERE, "--metrics", it], cannot("cannot listen for metrics", it))]


@pytest.mark.parametrize("flags, lines", FAULTS, ids=name_of)
def test_daemon_that_cannot_start_prints_why(program, flags, lines):
    status, output, errors = run(program, flags)
    assert (status, output) == (1, "")
    assert match(faults(errors), lines), f"{errors} for {lines}"


def test_daemon_that_cannot_write_the_first_line_of_the_record_ends(program, tmp_path):
    flags = [*ANYWHERE, "--until-eof", "--log-level=error", "--record", f"{tmp_path}/record"]
    status, output, errors = run(program, flags, preexec_fn=lambda: limit_file_size(10))
    assert (status, output) == (1, "")
    assert match(without_times(errors.splitlines()), cannot("cannot create the record", f"{tmp_path}/record")), errors


@pytest.mark.parametrize("level", ["error", "info"])
def test_daemon_that_cannot_write_to_standard_output_ends(program, level):
    with open("/dev/full", "wb") as full:
        status, _, errors = run(program, [*ANYWHERE, "--until-eof", f"--log-level={level}"], stdout=full)
    assert status == 1
    assert match(faults(errors), [r'\[ERROR bayeuxd\] cannot serve error=".+"', "bayeuxd: cannot serve"]), errors


def test_version_is_the_one_of_the_repository(program):
    for flag in ("--version", "-V"):
        assert run(program, [flag]) == (0, f"bayeuxd {read('VERSION').strip()}\n", "")


# Defaults in the help that the page states in other words. A flag that is off has none, unless it has an argument.
HELP_DEFAULTS = {"off": "none", "one per processor": "one for each processor", "1048576": "1m"}
# Words that turn a sentence into its opposite.
OPPOSITES = {"unless", "except"}


def words_of(text):
    """Returns the words of `text` in lower case, without short ones."""
    return set(re.findall(r"[a-z0-9-]{3,}", text.lower()))


def test_help_has_the_documented_flags(program):
    status, text, errors = run(program, ["--help"])
    assert (status, errors) == (0, "")
    assert run(program, ["-h"]) == (0, text, "")
    assert text.splitlines()[:3] == ["Serve Bayeux over HTTP", "", "Usage: bayeuxd [OPTIONS]"]
    rows = re.findall(r"^ +(?:-\w, )?--([a-z-]+)(?: <([A-Z]+)>)? +(\S.*)$", text, re.MULTILINE)
    assert sorted(name for name, _, _ in rows) == sorted([*FLAGS, "help", "version"])
    for name, argument, help_text in rows[:-2]:
        wanted, default, greatest, words = FLAGS[name]
        default = HELP_DEFAULTS.get(default, default) if wanted and name != REPEATED else None
        shown, limits = re.search(r" \[default: ([^\]]*)\]$", help_text), re.search(r"\b1 to (\w+)", help_text)
        assert (argument, shown and shown[1]) == (wanted, default), f"--{name}"
        assert limits is None or limits[1].replace("1m", str(1 << 20)) == greatest, f"--{name}"
        assert limits or not greatest or name in ("bytes", "record-bytes"), f"--{name} has no range"
        shared = {it: len(words_of(help_text) & words_of(FLAGS[it][-1])) for it in FLAGS}
        assert shared[name] == max(shared.values()), f"--{name} has the help of another flag: {help_text}"
        assert OPPOSITES & set(help_text.split()) <= set(words.split()), f"--{name}"


# The value of each flag with one, all settings in the log, except those for files, and the first line of the record.
ALL_FLAGS = [
    *(("--listen", "127.0.0.1:0"), ("--readers", "localhost:0"), ("--metrics", "127.0.0.1:0")),
    *(("--readers-publish", "/a"), ("--readers-publish", "/b/*"), ("--log", "json"), ("--log-level", "info")),
    *(("--shards", "2"), ("--timeout", "7s"), ("--interval", "2s"), ("--max-interval", "601s"), ("--limit", "3"), ("--bytes", "500")),
    *(("--patterns", "4"), ("--sessions", "5"), ("--body", "6000"), ("--messages", "9"), ("--connections", "9"), ("--record-bytes", "500000")),
]
ALL_LOGGED = {name[2:].replace("-", "_"): value for name, value in ALL_FLAGS if not name.startswith("--log")} | {
    **{"readers_publish": "/a,/b/*", "ride": "true", "anonymous": "true", "callback_polling": "false"},
    **{"record_answers": "true", "until_eof": "true"},
}
FIRST_LINE = "shards=2 timeout=7000 interval=2000 max_interval=601000 options=ra bytes=500 sessions=5 patterns=4 limit=3"
LIMITS = {"events": 3, "bytes": 500, "patterns": 4, "sessions": 5, "body": 6000, "messages": 9, "shards": 2}


def address_in(text):
    """Returns the host and the port at the end of `text`."""
    host, _, port = text.split()[-1].rpartition(":")
    return host.strip("[]"), int(port)


def expect_overflows(connection, sessions):
    """Checks that three of `sessions` overflow: one with too many events, one with too many bytes, and one with too many patterns."""
    large, small = ({"channel": "/a", "data": it} for it in ("x" * 160, 1))
    for it in sessions[:2]:
        subscribe(connection, "/a", it)
    expect_success(connection.ask([large] * 2), 2)
    expect_events(poll(connection, sessions[0]), [large] * 2)
    expect_success(connection.ask([large]), 1)
    expect_error(poll(connection, sessions[1]), "413::Queue overflow")
    expect_success(connection.ask([small] * 3), 3)
    expect_error(poll(connection, sessions[0]), "413::Queue overflow")
    subscribe(connection, [f"/{number}" for number in range(5)], sessions[2])
    expect_error(poll(connection, sessions[2]), "413::Queue overflow")


def expect_listener(client, address, is_reader):
    """Checks what one listener accepts."""
    connection = client(address)
    expect_status(connection, post(b"[%s]" % (b" " * 5998)), 200)
    expect_status(client(address), post(b"[%s]" % (b" " * 5999)), 413)
    expect_status(connection, post(json.dumps([{"channel": "/a", "data": 1}] * 10).encode()), 400, MORE_MESSAGES)
    expect_status(connection, get(b"?message=[]"), 403, "callback-polling is off")
    expect_status(client(address), post(b"[]", b"text/plain"), 415)
    for channel, is_allowed in (("/a", True), ("/b/1", True), ("/c", not is_reader)):
        expect_status(connection, post(json.dumps([{"channel": channel, "data": 1}]).encode()), 200 if is_allowed else 403)


def test_each_flag_has_its_effect_with_all_others(daemon, client, tmp_path):
    record, seed = tmp_path / "record", tmp_path / "seed"
    seed.write_text(SEED, encoding="ascii")
    given = [*ALL_FLAGS, ("--seed-file", seed), ("--record", record)]
    assert {it[2:] for it, _ in given} | {*SWITCHES} == {*FLAGS}, "the flags of docs/CONFIGURE.md"
    server = daemon(*(f"{name}={value}" for name, value in given), *(f"--{it}" for it in SWITCHES), is_plain=True)
    readers = address_in(server.process.stdout.readline().decode())
    lines = [json.loads(it) for it in server.full_log().splitlines()]
    assert [it["event"] for it in lines][:4] == ["starting", "metrics listening", "recording started", "listening"]
    settings = {name: value for name, value in lines[0].items() if name not in ("time", "level", "event")}
    assert settings == {**ALL_LOGGED, "record": str(record)}
    server.metrics = address_in(lines[1]["address"])
    with client(server) as connection, client(readers) as reader:
        first = expect_success(connection.ask([HANDSHAKE]), 1)[0]
        assert first["advice"] == {"reconnect": "retry", "interval": 2000, "timeout": 7000}
        assert first["clientId"] == f"{drawn(SEED, 0)}{1:016x}"
        session = {"clientId": first["clientId"]}
        sessions = [open_session(it) for it in (connection, reader, connection, reader)]
        expect_error(connection.ask([HANDSHAKE]), "503::Too many sessions")
        for it in (server.address, readers):
            expect_listener(client, it, it is readers)
        expect_overflows(connection, sessions)
        subscribe(connection, "/c", session)
        publish(connection, "/c", 1, {})
        expect_events(reader.ask([{"channel": "/a", "data": 1, **session}]), [{"channel": "/c", "data": 1}])
        server.expect({("bayeux_limit", f'{{name="{name}"}}'): value for name, value in LIMITS.items()})
    server.close()
    written = record.read_text(encoding="utf-8").splitlines()
    assert written[0] == FIRST_LINE
    assert {"A", "N", "P"} <= {it.split()[0 if it[0] == "A" else 1] for it in written[1:]}, "requests and answers in the record"


# The arguments of daemons that serve on at the end of standard input: few flags, all other flags, and positional arguments.
ENDLESS = {
    "few flags": ANYWHERE,
    "all flags": [
        *(f"{name}={value}" for name, value in ALL_FLAGS if name not in ("--connections", "--log")),
        *("--record=record", "--seed-file=seed", *(f"--{it}" for it in SWITCHES if it != "until-eof")),
    ],
    "positional arguments": [*ARGUMENTS[:-1], "0"],
}


@pytest.mark.parametrize("flags", ENDLESS.values(), ids=ENDLESS)
def test_end_of_input_ends_no_daemon_without_the_flag(daemon, client, tmp_path, flags):
    (tmp_path / "seed").write_text(SEED, encoding="ascii")
    server = daemon(*flags, is_plain=True, stdin=subprocess.DEVNULL, cwd=tmp_path)
    # Meanwhile, the daemon has read the end of standard input. If this ended it, it would answer with 503.
    for _ in range(100):
        with client(server) as connection:
            expect_status(connection, post(b"[]"), 200)
    server.check_alive()
