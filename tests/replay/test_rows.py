"""Rows: scripts and records for `bayeux_replay`, and what it must print for them (tests/rows/README.md).

Each row is a test: `./bayeux test rows -k WORD`. Rows that lib/made_rows.py makes are named by the function that makes them.
"""
import os
import re
import subprocess
from collections.abc import Callable, Iterator
from typing import Any

import pytest
from base import TOP
from daemon import has_sanitizer
from made_rows import EXPECTATIONS, MAKERS, REJECTED, REJECTED_LINES
from row_files import Row, expand_macros, rows_of

ROWS, SCRIPTS = TOP / "tests/rows", TOP / "examples/scripts"
# The arguments of a row that has none: shards, workers, timeout, interval and max_interval (in ms).
ARGUMENTS = ["1 1 30000 0 10000", "2 2 30000 0 10000", "64 16 30000 0 10000"]
# With a checked build: the arguments, and the greatest number of lines and of bytes of a script.
FEW_ARGUMENTS, MAX_LINES, MAX_BYTES = ARGUMENTS[1:2], 3_000, 4_000_000
# EACH: is replaced by one of ARGUMENTS in a row's arguments. RECORD: begins those of a record.
EACH, RECORD = "..", "--record"
# SHARDS: the line that is inserted between two others. SHORT: the greatest length in bytes of a script for that.
SHARDS, SHORT = b"0 S 5\n", 4_000
USAGE = "usage: bayeux_replay shards workers timeout interval max_interval [options [limit]]\n"
COUNT = "expected 5 to 7 arguments, after optional --bytes, --sessions and --patterns"
# The words of a record's first line, in order, and their values if a row's arguments have none.
WORDS = {
    **{"shards": "", "timeout": "", "interval": "", "max_interval": "", "options": "-", "bytes": "-"},
    **{"sessions": "65536", "patterns": "1024", "limit": "1024"},
}
OLD_LINE = "the record was made by version 0.1.0, whose first line has another form; replay it with that version"
WRONG_LINE = f"expected {' '.join(f'{it}=..' for it in WORDS)}"
# Arguments with a flag that is not alone, or not known, and the first line of a record.
MORE_REJECTED = ["--record", "--record - -", "--record /nothing/here 1", "- --record", "--help", "--Record -"]
FIRST_LINE = f"{' '.join(f'{it}={WORDS[it] or 1}' for it in WORDS)}\n".encode()
# A line with its end. How much of two outputs is shown around the first difference, in bytes.
LINE, WIDTH = re.compile(rb"[^\n]*\n|[^\n]+"), 300

Replay = Callable[..., subprocess.CompletedProcess[bytes]]
Check = Callable[[Row], None]


@pytest.fixture
def replay(replay_program: str) -> Replay:
    """Runs bayeux_replay: `replay(args, script, **how)`, with arguments of `subprocess.run`."""

    def run(args: list[str], script: bytes = b"", **how):
        streams: dict[str, Any] = {} if "stdin" in how else {"input": script}
        streams |= {"stdout": subprocess.PIPE, "stderr": subprocess.PIPE, **how}
        return subprocess.run([replay_program, *args], check=False, **streams)

    return run


@pytest.fixture(scope="session")
def is_short_replay(replay_program: str, pytestconfig: pytest.Config) -> bool:
    """Whether each row runs once, since the program is a checked build and --full is not given."""
    return has_sanitizer(replay_program) and not pytestconfig.getoption("--full")


@pytest.fixture
def check(replay: Replay, is_short_replay: bool) -> Check:
    """Checks what a row prints with all its arguments, alone and with the number of shards changed after each of its lines."""

    def run(row: Row) -> None:
        if is_short_replay and (row.script.count(b"\n") > MAX_LINES or len(row.script) > MAX_BYTES):
            pytest.skip("a checked build takes minutes for this; --full runs it")
        for variant in [row] if is_short_replay else [row, *redistributed(row)]:
            for arguments in arguments_of(row, FEW_ARGUMENTS if is_short_replay else ARGUMENTS):
                args, script = command_of(variant, arguments)
                expect_output(replay(args, script), f"{variant.name}, {arguments}", variant.expected)

    return run


def text_rows() -> list[Row]:
    """Returns the rows of the text files. Those in tests/rows/records are records."""
    rows = [row for file in sorted(ROWS.glob("*.txt")) if file.name != "words.txt" for row in rows_of(file)]
    records = [row for file in sorted((ROWS / "records").glob("*.txt")) for row in rows_of(file)]
    return rows + [it._replace(arguments=f"{RECORD} {it.arguments or EACH}") for it in records]


def identifier(row: Row) -> str:
    """Returns a row's name as one word."""
    return re.sub(r"\W+", "_", row.name.replace(".txt: ", "-"), flags=re.ASCII)


def redistributed(row: Row) -> Iterator[Row]:
    """Yields a short row with the line SHARDS after each of its lines in turn. Only the numbers of later lines grow, by one."""
    lines = LINE.findall(row.script) if len(row.script) <= SHORT else []
    for count in range(1, len(lines)):
        printed = []
        for line in LINE.findall(row.expected):
            number, _, rest = line.partition(b" ")
            printed.append(b"%d %s" % (int(number) + (int(number) > count), rest))
        script = b"".join([*lines[:count], SHARDS, *lines[count:]])
        yield Row(f"{row.name}, redistributed after {count} lines", row.arguments, script, b"".join(printed))


def arguments_of(row: Row, each: list[str]) -> list[str]:
    """Returns the arguments to run a row with. `each`: those that replace EACH, or that a row without arguments gets."""
    if not row.arguments:
        return each
    if EACH in row.arguments.split():
        return [row.arguments.replace(EACH, it) for it in each]
    return [row.arguments]


def command_of(row: Row, arguments: str) -> tuple[list[str], bytes]:
    """Returns the program's arguments and its input. Those of a record are written into its first line."""
    if arguments.startswith(RECORD):
        return [RECORD, "-"], f"{first_line(arguments[len(RECORD) + 1 :])}\n".encode() + row.script
    return arguments.split(), row.script


def first_line(arguments: str) -> str:
    """Returns the first line of a record for a row's arguments. The number of workers is not in it."""
    given, words = dict(WORDS), arguments.split()
    while words[0].startswith("--"):
        given[words[0][2:]], words = words[1], words[2:]
    given.update(zip(("shards", "workers", "timeout", "interval", "max_interval", "options", "limit"), words))
    return " ".join(f"{it}={given[it]}" for it in WORDS)


def expect_output(result: subprocess.CompletedProcess[bytes], what: str, expected: bytes) -> None:
    """Checks that a run ended with status 0 and printed `expected`. `what`: the run, for the message."""
    assert (result.returncode, result.stderr) == (0, b""), what
    if result.stdout != expected:
        at = len(os.path.commonprefix([result.stdout, expected]))
        start = max(at - WIDTH, result.stdout.rfind(b"\n", 0, at) + 1)
        found, wanted = (it[start : at + WIDTH].decode(errors="replace") for it in (result.stdout, expected))
        assert found == wanted, f"{what}: line {expected.count(bytes([10]), 0, start) + 1} of the output"


def expect_refused(result: subprocess.CompletedProcess[bytes], message: str, status: int = 2) -> None:
    """Checks that a run printed nothing but an error, with the usage if `message` has it."""
    assert (result.returncode, result.stdout, result.stderr.decode()) == (status, b"", message)


@pytest.mark.parametrize("row", text_rows(), ids=identifier)
def test_row(row: Row, check: Check) -> None:
    check(row)


@pytest.mark.parametrize("make", MAKERS, ids=lambda it: it.__name__)
def test_made_row(make: Callable[[], Iterator[tuple[str, ...]]], check: Check) -> None:
    for name, script, expected, *arguments in make():
        check(Row(name, arguments[0] if arguments else None, expand_macros(script).encode(), expand_macros(expected).encode()))


@pytest.mark.parametrize("name", sorted(it.name for it in SCRIPTS.iterdir() if it.suffix in (".script", ".make")))
def test_example_script(name: str, check: Check) -> None:
    path = SCRIPTS / name
    if path.suffix == ".make":
        script, expected = (subprocess.run([path, it], check=True, stdout=subprocess.PIPE).stdout for it in ("script", "expected"))
    else:
        script, expected = path.read_bytes(), path.with_suffix(".expected").read_bytes()
    check(Row(name, None, script, expected))


@pytest.mark.parametrize("word", REJECTED, ids=lambda it: it or "count")
def test_refused_arguments_are_named(word: str, replay: Replay) -> None:
    message = f"{word}: expected {EXPECTATIONS[word]}" if word else COUNT
    for arguments in REJECTED[word]:
        expect_refused(replay(arguments.split(" ")), f"{USAGE}bayeux_replay: {message}\n")


@pytest.mark.parametrize("arguments", MORE_REJECTED)
def test_refused_arguments_with_a_record(arguments: str, replay: Replay) -> None:
    expect_refused(replay(arguments.split(), FIRST_LINE), f"{USAGE}bayeux_replay: {COUNT}\n")


def test_refused_arguments_that_are_not_utf_8(replay: Replay) -> None:
    expect_refused(replay([os.fsdecode(b"\xff")]), f"{USAGE}bayeux_replay: expected arguments in UTF-8\n")


@pytest.mark.parametrize("word", [*REJECTED, "lines"], ids=lambda it: it or "count")
def test_records_with_a_refused_first_line(word: str, replay: Replay) -> None:
    for line in REJECTED.get(word, REJECTED_LINES):
        is_old = word in REJECTED and line.split(" ")[0] == "--bytes"
        message = f"bayeux_replay: the first line of the record: {OLD_LINE if is_old else WRONG_LINE}\n"
        expect_refused(replay([RECORD, "-"], f"{line}\n0 P []\n".encode()), message)


def test_record_without_a_line_is_refused(replay: Replay) -> None:
    expect_refused(replay([RECORD, "-"]), f"bayeux_replay: the first line of the record: {WRONG_LINE}\n")


def test_missing_record_cannot_be_opened(replay: Replay) -> None:
    message = "bayeux_replay: cannot open /nothing/here: No such file or directory (os error 2)\n"
    expect_refused(replay([RECORD, "/nothing/here"]), message, status=1)


def test_folder_cannot_be_read(replay: Replay) -> None:
    expect_refused(replay([RECORD, str(ROWS)]), "bayeux_replay: read fault\n", status=1)
    folder = os.open(ROWS, os.O_RDONLY)
    try:
        expect_refused(replay(ARGUMENTS[0].split(), stdin=folder), "bayeux_replay: read fault\n", status=1)
    finally:
        os.close(folder)


def test_full_disk_cannot_be_written(replay: Replay) -> None:
    with open("/dev/full", "wb") as full:
        result = replay(ARGUMENTS[0].split(), b"0 P []\n", stdout=full)
    assert (result.returncode, result.stderr) == (1, b"bayeux_replay: write fault\n")
