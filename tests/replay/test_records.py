"""Calls of scripts/replay_record with records, and what they must print (tests/records/README.md); and records that grow.

Each call of records.txt is a test: `./bayeux test records -k WORD`.
"""
import contextlib
import difflib
import hashlib
import io
import itertools
import os
import re
import select
import shutil
import signal
import subprocess
import sys
import threading
from collections.abc import Callable, Iterator
from pathlib import Path
from typing import Any, NamedTuple

import pytest
import records
from base import TOP, load_script, make_program, read, wait_until
from row_files import blocks_of, expand_macros

REPLAY_RECORD = f"{TOP}/scripts/replay_record"
CHECKER = load_script(REPLAY_RECORD)
DIGEST = re.compile(r"sha256\((.*)\)", re.DOTALL)
TIMES = re.compile(r"times\(([0-9]+) (.)\)")
# Precedes the arguments of a call for which the file cannot be read to its end. The program that makes such a call.
UNREADABLE, ODD_RECORD = "torn", [sys.executable, f"{TOP}/tests/lib/odd_record.py"]
# How long a call may take, in seconds.
SECONDS = 120
# The first line of a record, and a handshake that names its session Ben.
FIRST_LINE = "shards=1 timeout=30000 interval=0 max_interval=10000 options=- bytes=- sessions=65536 patterns=1024 limit=1024"
BEN = '{"channel":"/meta/handshake","version":"1.0","supportedConnectionTypes":["long-polling"],"ext":{"name":"Ben"}}'
# How many clients match where many do, and how many of them are listed.
SESSIONS, LISTED = 12, 10
# Ways to call replay_record: replay, check, follow, and show a client.
WAYS: list[list[str]] = [[], ["--check"], ["--check", "--follow"], ["--client", "Ben"]]


class Call(NamedTuple):
    """A call with a record, and what it must print. `messages`: texts that standard error must contain."""

    name: str
    record: bytes
    arguments: list[str]
    status: int
    printed: str
    messages: list[str]


class Result(NamedTuple):
    """What a call ended with. The record's path is replaced by FILE."""

    status: int
    output: str
    errors: str


Ask = Callable[..., Result]


def expand(text: str) -> str:
    """Returns `text` with all words and all `times(COUNT CHARACTER)` replaced."""
    return TIMES.sub(lambda found: int(found[1]) * found[2], expand_macros(text))


def record_line(line: str) -> str:
    """Returns a line of a record as it is written to the file, with all words and digests replaced."""
    return DIGEST.sub(lambda found: hashlib.sha256(found[1].encode()).hexdigest(), expand(line))


def calls_of(name: str, lines: list[str]) -> Iterator[Call]:
    """Yields the calls that `lines` describe. `name`: what they are about."""
    record = "".join(record_line(it[2:]) + ("\n" if it[0] == ">" else "") for it in lines if it[0] in ">^").encode()
    found: Call | None = None
    for mark, text in ((it[0], it[2:]) for it in lines if it[0] not in ">^"):
        if mark == "?":
            if found:
                yield found
            found = Call(name, record, expand_macros(text).split(), 0, "", [])
        elif found and mark == "!":
            found = found._replace(status=int(text))
        elif found and mark == "<":
            found = found._replace(printed=f"{found.printed}{expand(text)}\n")
        elif found and mark == "~":
            found.messages.append(text)
    if found:
        yield found


def identifier(call: Call) -> str:
    """Returns the name and the arguments of a call as one word."""
    return re.sub(r"\W+", "_", f"{call.name}-{' '.join(call.arguments)[:60]}", flags=re.ASCII)


@pytest.fixture
def ask(replay_program: str, tmp_path: Path) -> Ask:
    """Calls scripts/replay_record: `ask(args, text)`, where FILE in `args` is a record with `text`.

    `program`: a command in place of the script. `env`: the environment. `how`: more arguments of `subprocess.run`.
    """

    def run(args: list[str], text: bytes = b"", program=(REPLAY_RECORD,), **how) -> Result:
        record = tmp_path / "record"
        record.write_bytes(text)
        command = [*program, *(it.replace("FILE", str(record)) for it in args)]
        usual: dict[str, Any] = {"stdin": subprocess.DEVNULL, "stdout": subprocess.PIPE, "stderr": subprocess.PIPE}
        usual["env"] = {**os.environ, "REPLAY": replay_program}
        result = subprocess.run(command, timeout=SECONDS, check=False, **{**usual, **how})
        output, errors = ((it or b"").decode(errors="replace").replace(str(record), "FILE") for it in (result.stdout, result.stderr))
        return Result(result.returncode, output, errors)

    return run


CALLS = [call for name, lines in blocks_of(TOP / "tests/records/records.txt", ">^?!<~") for call in calls_of(name, lines)]


@pytest.mark.parametrize("call", CALLS, ids=identifier)
def test_call(call: Call, ask: Ask) -> None:
    args, program = call.arguments, [REPLAY_RECORD]
    if args[:1] == [UNREADABLE]:
        args, program = args[3:], [*ODD_RECORD, *args[:3]]
    found = ask(["--record", "FILE", *args], call.record, program=program)
    wanted, printed = call.printed.splitlines(), found.output.splitlines()
    changes = list(difflib.unified_diff(wanted, printed, "what it must print", "what it prints", n=0, lineterm=""))
    assert (found.status, changes) == (call.status, []), found.errors
    # With status 2 it must print its usage, unless the call expects other texts on standard error.
    for it in call.messages or ["usage: "] * (call.status == 2):
        assert it in found.errors


class Growing:
    """A record that grows while a check follows it. The clock of the check is put forward."""

    def __init__(self, path: Path, replay: str):
        """Makes a record with one handshake, and starts a check with the program `replay`."""
        self.path, self.output, self.clock, self.seconds = path, b"", path.with_suffix(".clock"), 0
        self.file = open(path, "wb", buffering=0)
        self.add(FIRST_LINE, "0 P [<handshake>]", "A 0 sha256([<opened 1>])")
        self.pass_time(0)
        args = [*ODD_RECORD, "clock", str(self.clock), "--record", str(path), "--check", "--follow"]
        environment = {**os.environ, "REPLAY": replay}
        self.process: Any = subprocess.Popen(args, stdout=subprocess.PIPE, stderr=subprocess.STDOUT, env=environment)
        self.wait_for(f"following {path}\n")

    def pass_time(self, seconds: int) -> None:
        """Puts the clock of the check forward."""
        self.seconds += seconds
        # Not empty at any time.
        new = self.clock.with_suffix(".new")
        new.write_text(str(self.seconds), encoding="ascii")
        new.rename(self.clock)

    def add(self, *lines: str) -> None:
        """Appends `lines`."""
        self.file.write("".join(f"{record_line(it)}\n" for it in lines).encode())

    def has_printed(self, text: str) -> bool:
        """Returns whether the check has printed `text`. Waits a moment for more output if not."""
        if text.encode() not in self.output and select.select([self.process.stdout], [], [], 0.1)[0]:
            data = self.process.stdout.read1(1 << 16)
            self.output += data
            assert data or text.encode() in self.output, f"the check ended without {text!r}: {self.output.decode()}"
        return text.encode() in self.output

    def wait_for(self, text: str) -> None:
        """Waits until the check has printed `text`."""
        wait_until(f"the check prints {text!r}", lambda: self.has_printed(text), pause=0)

    def pass_time_until(self, text: str) -> int:
        """Puts the clock forward by eleven seconds at a time until the check has printed `text`, and returns how often."""
        count = 0
        while not self.has_printed(text):
            assert self.seconds < 6_000, f"no {text!r} in {self.output.decode()[:1000]}"
            self.pass_time(11)
            count += 1
        return count

    def end(self, status: int) -> None:
        """Waits until the check has ended with `status`."""
        assert self.process.wait(SECONDS) == status


@pytest.fixture
def growing(replay_program: str, tmp_path: Path) -> Iterator[Callable[..., Growing]]:
    """Starts a check of a record that grows: `growing(replay)`. It ends with the test."""
    with contextlib.ExitStack() as stack:

        def start(replay: str = replay_program) -> Growing:
            it = Growing(tmp_path / "growing", replay)
            for end in (it.file.close, it.process.communicate, it.process.kill):
                stack.callback(end)
            return it

        yield start


def test_follow_compares_a_record_that_grows_until_an_interrupt(growing) -> None:
    it = growing()
    it.add("1 P [<subscribe 1 /a>]")
    line = f"{record_line('A 1 sha256([<subscribed 1 /a>])')}\n".encode()
    it.file.write(line[:-30])
    passed = it.pass_time_until("line 4, moment 1, answers compared: 1, waiting: 0, bytes behind: ")
    it.file.write(line[-30:])
    it.add("2 T", "3 P [<poll 1>]", "A 3 sha256([<connected 1>])")
    it.file.write(b"4 T")
    passed += it.pass_time_until("line 8, moment 3, answers compared: 3, waiting: 0, bytes behind: 3\n")
    # Progress is reported at most once in ten seconds of the clock.
    assert it.output.count(b", moment ") <= passed
    it.process.send_signal(signal.SIGINT)
    it.wait_for("\nanswers compared: 3, wrong: 0, without a line A: 0, not compared: 0\n")
    it.end(0)


@pytest.mark.parametrize("is_deleted", [False, True], ids=["record", "deleted_record"])
def test_follow_ends_with_a_wrong_answer(is_deleted: bool, growing) -> None:
    it = growing()
    if is_deleted:
        it.path.unlink()
    it.add("1 P [<subscribe 1 /a>]", "A 1 sha256([<subscribed 1 /b>])")
    it.wait_for("line 5: place 1: another answer than the replay's\n")
    request = "the request is line 4, of client <client 1>\n"
    it.wait_for(f"bayeux: cannot search for the request: {it.path} " if is_deleted else expand_macros(request))
    it.end(1)


def test_follow_counts_what_was_not_compared(growing, tmp_path: Path) -> None:
    it = growing(make_program(tmp_path / "replay", "exec sleep 100"))
    it.add(*(line for place in range(1, 2001) for line in ("1 P [<subscribe 1 /a>]", f"A {place} sha256([<subscribed 1 /a>])")))
    it.pass_time_until(", moment 1, answers compared: 0, ")
    it.process.send_signal(signal.SIGINT)
    it.pass_time_until("\nanswers compared: 0, wrong: 0, without a line A: 0, not compared: 2001\n")
    it.end(0)


class SimulatedRecord(records.Source):
    """A record that grows, and a clock that goes on by 0.1 seconds with each read, in place of that of the scripts.

    `grow(record)`: returns what a read finds.
    """

    def __init__(self, grow: Callable[["SimulatedRecord"], bytes], monkeypatch: pytest.MonkeyPatch):
        # pylint: disable=super-init-not-called
        self.grow, self.seconds, self.file, self.read = grow, 0.0, io.BytesIO(), 0
        for module in (records, CHECKER):
            monkeypatch.setattr(module, "time", self)

    def block(self, size: int) -> bytes:
        self.seconds += 0.1
        return self.grow(self)

    def monotonic(self) -> float:
        return self.seconds


def find_late_answer(monkeypatch: pytest.MonkeyPatch, lag: float, answered: bool, bad: bool = False):
    """Runs a check of an endless record for 100 seconds of the record's clock, with a simulated replay.

    The replay lags `lag` seconds. It answers a held connect at line 5 if `answered`, otherwise never. If `bad`, it cannot read
    the first line after five seconds. Returns the line and place of the fault, or `None`, the number of compared answers, and
    the time at the end.
    """
    begin = ["0 P [<handshake>]", "1 P [<connect 1>]", "A 1 sha256([<connected 1>])", "2 T", "3 T"]
    blocks = itertools.chain(["".join(f"{record_line(it)}\n" for it in begin).encode()], itertools.repeat(b"1 T\n" * 10))
    record, check = SimulatedRecord(lambda _: next(blocks), monkeypatch), CHECKER.Check()
    given: list[tuple[float, bytes]] = []
    number, line = 0, 1
    for part in check.parts(record.follow(threading.Event(), None)):
        given.extend((record.seconds, line) for line in (part or b"").split(b"\n")[:-1])
        while number < len(given) and given[number][0] <= record.seconds - lag:
            is_push = given[number][1] == b"-"
            number += 1
            line += not is_push
            if is_push or (bad and record.seconds > 5):
                check.printed(number, "bad", b"")
            if bad and check.fault:
                break
            if number == 5 and answered:
                check.printed(2, "200", expand_macros("[<connected 1>]").encode())
        if check.fault or record.seconds > 100:
            break
    return check.fault and (check.fault.line - line if bad else check.fault.line, check.fault.place), check.compared, record.seconds


@pytest.mark.parametrize("lag", [0, 30])
def test_late_answer_is_found_in_an_endless_record(lag: int, monkeypatch) -> None:
    found, compared, seconds = find_late_answer(monkeypatch, lag, False)
    assert (found, compared) == ((4, 1), 0)
    # A new push begins only when the replay has printed the last one.
    assert 10 + lag <= seconds <= 13 + 2 * lag


def test_late_replay_is_waited_for_unless_it_cannot_read_a_line(monkeypatch) -> None:
    for lag in (0, 30):
        assert find_late_answer(monkeypatch, lag, True)[:2] == (None, 1)
    assert find_late_answer(monkeypatch, 0, False, bad=True)[0] == (0, None)


def test_check_keeps_nothing_of_a_compared_request() -> None:
    check, text = CHECKER.Check(), b"[]"
    digest = hashlib.sha256(text).hexdigest()
    for number in range(1, 101):
        check.read_line(2 * number, b"0 P [{}]")
        calls = [(check.read_line, 2 * number + 1, f"A {number - 1} {digest}".encode()), (check.printed, 2 * number - 1, "200", text)]
        for call, *args in calls if number % 2 else reversed(calls):
            call(*args)
    assert not [name for name, it in vars(check).items() if hasattr(it, "__len__") and len(it)]
    assert (check.compared, check.differing) == (100, 0)


@pytest.mark.parametrize("text, wanted", [("<opened 1>", (1, 1, 4)), ("<opened 2>", (1, 2, 3))], ids=["right", "wrong"])
def test_answer_may_be_printed_before_its_line(text: str, wanted: tuple[int, int, int]) -> None:
    check, line = CHECKER.Check(), record_line(f"A 0 sha256([{text}])").encode()
    check.read_line(2, record_line("0 P [<handshake>]").encode())
    check.printed(1, "200", expand_macros("[<opened 1>]").encode())
    # The second line A has no answer left.
    check.read_line(3, line)
    check.read_line(4, line)
    check.fail_late(float("inf"))
    assert (check.compared, check.differing, check.fault.line) == wanted


@pytest.mark.parametrize("pause, lines", [(2.0, 10), (9.0, 10), (11.0, 0)])
def test_idle_counts_from_the_last_growth(pause: float, lines: int, monkeypatch) -> None:
    """The file grows by a line after each `pause` seconds, ten times."""
    due, stop = [pause * it for it in range(10, 0, -1)], threading.Event()
    record = SimulatedRecord(lambda it: b"1 T\n" if due and it.seconds >= due[-1] and due.pop() else b"", monkeypatch)
    monkeypatch.setattr(stop, "wait", lambda seconds: None)
    assert sum(it is not None for it in record.follow(stop, 10.0)) == lines
    assert pause * lines + 10.0 <= record.seconds <= pause * lines + 11.0


def test_items_that_are_nested_too_deeply_are_refused() -> None:
    with pytest.raises(ValueError):
        records.items_of(b"[" * 100_000 + b"]" * 100_000)


@pytest.mark.parametrize("way", [WAYS[0], WAYS[1], WAYS[3]], ids=" ".join)
def test_interrupt_of_a_call_that_does_not_follow(way: list[str], ask: Ask, tmp_path: Path) -> None:
    replay = make_program(tmp_path / "replay", "kill -INT $PPID; exec cat >/dev/null")
    found = ask(["--record", "FILE", *way], f"{FIRST_LINE}\n".encode(), env={**os.environ, "REPLAY": replay})
    assert (found.status, found.output, found.errors) == (130, "", "")


def test_installed_script_replays_with_the_program_on_the_path(ask: Ask, tmp_path: Path) -> None:
    built = "crates/bayeux_replay/out"
    for it in ("path", "scripts", built):
        (tmp_path / it).mkdir(parents=True)
    shutil.copy(REPLAY_RECORD, tmp_path / "scripts/bayeux_record")
    shutil.copy(f"{TOP}/scripts/records.py", tmp_path / "scripts")
    for it in ("path", built):
        make_program(tmp_path / it / "bayeux_replay", f'echo "{it} $*"; cat')
    how = {"env": {"PATH": f"{tmp_path}/path:{os.environ['PATH']}"}, "program": [f"{tmp_path}/scripts/bayeux_record"]}
    for wanted in (built, "path"):
        # The last line is not complete.
        found = ask(["--record", "FILE"], f"{FIRST_LINE}\n0 T\n1 T".encode(), **how)
        assert found == (0, f"{wanted} --record -\n{FIRST_LINE}\n0 T\n", "")
        shutil.rmtree(tmp_path / "crates", ignore_errors=True)
    usage = "usage: bayeux_record --record FILE [--client ID-OR-NAME | --check [--follow [--idle SECONDS]]]\n"
    found = ask(["--record", "FILE", "--client", ""], **how)
    assert found == (2, "", f"bayeux: --client: expected the beginning of a client id, or a name\n{usage}")


def test_clients_that_match_are_counted_and_ten_are_listed(ask: Ask) -> None:
    # No message has a client id here, so only the nonces are known.
    nonces = [f"a{number:031x}" for number in reversed(range(SESSIONS))]
    lines = [it for number, nonce in enumerate(nonces) for it in (f"{number} N {nonce}", f"{number} P [{BEN}]")]
    text = "".join(f"{it}\n" for it in (FIRST_LINE, *lines)).encode()
    named = [f"line {2 * number + 1}, moment {number - 1}: {nonce}{number:016x}" for number, nonce in enumerate(nonces, 1)]
    for client, what, matches in ("a", "client ids begin with a", sorted(nonces)), ("Ben", "sessions gave themselves the name Ben", named):
        wanted = "\n  ".join([f"bayeux: {SESSIONS} {what}", *matches[:LISTED]]) + "\n"
        assert ask(["--record", "FILE", "--client", client], text) == (1, "", wanted)


@pytest.mark.parametrize("way", WAYS, ids=" ".join)
def test_file_or_program_that_cannot_be_used_is_named(way: list[str], ask: Ask, tmp_path: Path) -> None:
    os.mkfifo(tmp_path / "pipe")
    none = f"{tmp_path}/none"
    results = [(path, ask(["--record", path, *way])) for path in (none, str(tmp_path), f"{tmp_path}/pipe", "/dev/null")]
    assert all("usage: " in found.errors for _, found in results)
    results.append((none, ask(["--record", "FILE", *way], f"{FIRST_LINE}\n0 P [{BEN}]\n".encode(), env={**os.environ, "REPLAY": none})))
    for path, found in results:
        assert (found.status, found.output) == (2, "")
        assert path in found.errors and "Traceback" not in found.errors


NAMED, FAILED = "bayeux: Ben, by the handshake of line 2 at moment 0, is ", "bayeux: standard output"
# Of each output that cannot be written: why that is so.
UNWRITABLE = {"full": "No space left on device", "pipe": "Broken pipe", "closed": "closed"}


def ask_unwritable(ask: Ask, args: list[str], text: bytes, output: str) -> Result:
    """Calls `ask` with an output that cannot be written: a `full` disk, a `pipe` without a reader, or `closed`."""
    if output == "closed":
        return ask(args, text, program=["sh", "-c", 'exec "$0" "$@" >&-', REPLAY_RECORD])
    reader, writer = os.pipe()
    os.close(reader)
    with open(writer, "wb") as pipe, open("/dev/full", "wb") as full:
        return ask(args, text, stdout=full if output == "full" else pipe)


@pytest.mark.parametrize("output", UNWRITABLE)
@pytest.mark.parametrize("way", [*WAYS, ["--check", "--follow", "--idle", "0.5"]], ids=" ".join)
def test_output_that_cannot_be_written_is_reported(ask: Ask, way: list[str], output: str) -> None:
    """Unless nothing is written: the record has no answer to Ben, and a pipe without a reader does not refuse that."""
    text = f"{FIRST_LINE}\n0 P [{BEN}]\n" + ("no line\n" if "--check" in way else "")
    found = ask_unwritable(ask, ["--record", "FILE", *way], text.encode(), output)
    wanted = [(FAILED, UNWRITABLE[output])]
    if not way and output != "closed":
        wanted = [("bayeux_replay: ", "")]
    elif "--client" in way and output != "closed":
        wanted = [(NAMED, ""), *(wanted if output == "full" else [])]
    lines = found.errors.splitlines()
    assert (found.status, len(lines)) == (0 if wanted == [(NAMED, "")] else 1, len(wanted)), lines
    assert all(it.startswith(begin) and part in it for it, (begin, part) in zip(lines, wanted)), lines


def test_examples_of_monitor(ask: Ask) -> None:
    """In the record of the page, the digest of the answer to Ben's connect is that of another answer."""
    ben, ann = f"c3c2{0:027}1{1:016}", f"a1{0:030}{2:016}"
    lines = [
        *(FIRST_LINE, f"0 N {ben[:32]}", f"0 P [{BEN}]", "101 P [<subscribe 1 /chat/hall>]"),
        *("A 0 sha256([<opened 1>])", "A 1 sha256([<subscribed 1 /chat/hall>])"),
        *("180 T", '185 P [{"channel":"/meta/connect","clientId":"<client 1>","connectionType":"long-polling","id":"b3"}]'),
        *(f"200 N {ann[:32]}", "200 P [<handshake>]", "A 4 sha256([<opened 2>])", "300 T", "400 T"),
        '732 P [{"channel":"/chat/hall","clientId":"<client 2>","data":"Lunch at one","id":"a2"}]',
        *('A 7 sha256([{"channel":"/chat/hall","id":"a2","successful":true}])', "A 3 sha256([])"),
    ]
    for number, client in enumerate((ben, ann), 1):
        lines = [expand(it).replace(expand(f"<client {number}>"), client) for it in lines]
    text = "".join(f"{record_line(it)}\n" for it in lines)
    examples = re.findall(r"^    \$ \./bayeux replay --record monday\.record (.+)\n((?:    .*\n)+)", read("docs/MONITOR.md"), re.MULTILINE)
    assert [it.partition(" ")[0] for it, _ in examples] == ["--client", "--check"]
    for arguments, wanted in examples:
        found = ask(["--record", "FILE", *arguments.split()], text.encode())
        pattern = re.escape(re.sub("^    ", "", wanted, flags=re.MULTILINE)).replace(r"\.\.", ".*")
        assert re.fullmatch(pattern, found.output), found.output
