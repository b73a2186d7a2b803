"""Reads the lines of a record, and runs the program that computes its answers again.

A record is a file of bytes, in which only a newline ends a line. The first line is the server's configuration. Each other line
is a request, a tick, the nonce of the next request, or the digest of an answer (a line A).
"""
import contextlib
import json
import os
import re
import subprocess
import threading
import time
import urllib.parse
from collections import namedtuple

TOP = os.path.dirname(os.path.dirname(os.path.realpath(__file__)))
# The program that replays: in the repository its proved build, in the package the one on the path.
BUILT = f"{TOP}/crates/bayeux_replay/out/bayeux_replay"
REPLAY = os.environ.get("REPLAY", BUILT if os.path.isdir(f"{TOP}/crates") else "bayeux_replay")
# The first line of a record: the server's configuration. After the options it has the limits.
FIRST = re.compile(rb"shards=[0-9]+ timeout=[0-9]+ interval=[0-9]+ max_interval=[0-9]+ options=(?:-|r|a|ra)(?: [a-z]+=(?:-|[0-9]+))+")
# How the first line of a record of version 0.1.0 begins.
OLD = b"--bytes "
# A line with a moment: a tick (T), a request (P, F or G), a number of shards (S), or a nonce (N).
LINE = re.compile(rb"([0-9]+) (?:(T)|([PFGSN]) (.*))", re.DOTALL)
# A line A: the place of a request's first message, and the SHA-256 of the answer.
ANSWER = re.compile(rb"A ([0-9]{1,20}) ([0-9A-Fa-f]{64})")
# The beginning of what the replay prints for a line: its number and status. The text that follows
# may contain line ends that a client sent.
PRINTED = re.compile(rb"([0-9]+) ([0-9]{3}|held|bad)(?: |\Z)")
# What may precede an item of a JSON array.
BETWEEN = re.compile(r"[ \t\r\n,]*")
# A line that is not valid: the replay prints that it is bad, and otherwise ignores it.
NO_LINE = b"-\n"
# BLOCK: the bytes that are read at once. PAUSE: the seconds between two looks whether a file has
# grown. MOMENT: the seconds after which `Source.followed` yields None while the file grows.
BLOCK, PAUSE, MOMENT = 1 << 16, 0.1, 1.0

# The seconds to wait for the thread that feeds the replay after the replay was killed.
TIMEOUT_SECONDS = 5.0

# A line of a record. `moment`: in milliseconds. `kind`: one of the letters above. `text`: the rest
# of the line. `place`: the place of its first message, or of the tick.
Line = namedtuple("Line", "moment kind text place")
DECODER = json.JSONDecoder(parse_int=str, parse_float=str, parse_constant=str)


class UsageError(Exception):
    """The arguments are wrong. The text says why."""


class ReplayError(Exception):
    """The replay failed, or did not get the whole record. `status`: the exit status that reports this."""

    status = 1


class ReadError(ReplayError):
    """The file of the record cannot be read."""

    status = 2


@contextlib.contextmanager
def read_errors(path):
    """Raises `ReadError`, with `path`, in place of an OSError within the context."""
    try:
        yield
    except OSError as error:
        raise ReadError(f"{path} cannot be read: {error.strerror}") from error


def decoded(text):
    """Returns the value of a JSON text, given as bytes. Numbers become texts. Raises `ValueError` if it is not valid, or too deep."""
    try:
        return json.loads(text.decode("utf-8", "replace"), parse_int=str, parse_float=str, parse_constant=str)
    except RecursionError as error:
        raise ValueError("too deep") from error


def documents_of(kind, text):
    """Returns the JSON documents of a request, as bytes. `kind`, `text`: those of its line."""
    if kind == b"P":
        return [text]
    pairs = urllib.parse.parse_qsl(text.decode("utf-8", "replace"), keep_blank_values=True, errors="replace")
    return [value.encode("utf-8", "replace") for name, value in pairs if name == "message"]


def messages_of(kind, text):
    """Returns the messages of a request, or [] if one of its documents is not valid JSON. `kind`, `text`: those of its line."""
    found = []
    try:
        for document in documents_of(kind, text):
            value = decoded(document)
            found += value if isinstance(value, list) else [value]
    except ValueError:
        return []
    return found


def client_of(message):
    """Returns the client id of a message or a reply, or "" if it has none."""
    found = message.get("clientId") if isinstance(message, dict) else None
    return found if isinstance(found, str) else ""


def items_of(text):
    """Returns the items of a JSON array, given as bytes: pairs of the item's value and its own text.

    Raises `ValueError` if it is no valid array, or too deep.
    """
    text = text.decode("utf-8", "surrogateescape")
    if not text.startswith("["):
        raise ValueError("no array")
    found, at = [], 1
    while True:
        at = BETWEEN.match(text, at).end()
        if text.startswith("]", at):
            return found
        try:
            value, end = DECODER.raw_decode(text, at)
        except RecursionError as error:
            raise ValueError("too deep") from error
        found.append((value, text[at:end]))
        at = end


def answer_of(line):
    """Returns the place and the digest of a line A, or `None` if the line is none."""
    found = ANSWER.fullmatch(line)
    if not found or int(found[1]) >= 1 << 64:
        return None
    return int(found[1]), bytes.fromhex(found[2].decode("ascii"))


class Reader:
    """Parses the lines of a record, which it must get in order, from the second on."""

    def __init__(self):
        # The place of the next message or tick.
        self.place = 0

    def read(self, line):
        """Returns a `Line` and its messages. Returns `None` and [] for a line A and for a line that is not valid."""
        found = LINE.fullmatch(line)
        if not found:
            return None, []
        moment, kind, text = int(found[1]) if len(found[1]) < 21 else 0, found[2] or found[3], found[4] or b""
        messages = messages_of(kind, text) if kind in (b"P", b"F", b"G") else []
        place = self.place
        self.place += 1 if kind == b"T" else len(messages)
        return Line(moment, kind, text, place), messages


def is_request(line):
    """Returns `True` if `line`, as `Reader.read` returned it, is a request."""
    return line is not None and line.kind in (b"P", b"F", b"G")


class Source:
    """The file of a record."""

    def __init__(self, path):
        """Opens the file at `path`. Raises `UsageError` if it is no regular file, or cannot be opened."""
        self.path = path
        if not os.path.isfile(path):
            raise UsageError(f"{path} is not a regular file")
        try:
            self.file = open(path, "rb", buffering=0)
        except OSError as error:
            raise UsageError(f"cannot open {path}: {error.strerror}") from error
        # The number of bytes of the whole lines that were read so far.
        self.read = 0

    def begin(self):
        """Returns the first line. Raises `UsageError` if it is not the first line of a record, `ReadError` if reading fails."""
        first = b""
        while b"\n" not in first and len(first) < 200:
            data = self.block(200 - len(first))
            if not data:
                break
            first += data
        line, end, _ = first.partition(b"\n")
        if line.startswith(OLD):
            raise UsageError(f"{self.path} was made by version 0.1.0, whose first line has another form; replay it with that version")
        if not end or not FIRST.fullmatch(line):
            raise UsageError(f"{self.path} has no first line that says how a server is run")
        self.read = len(line) + 1
        return line

    def size(self):
        """Returns the file's length in bytes. Raises `ReadError` if that fails."""
        with read_errors(self.path):
            return os.fstat(self.file.fileno()).st_size

    def block(self, size):
        """Reads and returns at most `size` bytes, or b"" at the end of the file. Raises `ReadError` if that fails."""
        with read_errors(self.path):
            return self.file.read(size)

    def lines(self):
        """Yields the number and the text of each further line that is whole when the call begins.

        Begins after the last line that was read. The first line that it yields has number 2, as directly after `begin`.
        Raises `ReadError` if reading fails.
        """
        number, rest, left = 1, [], self.size() - self.read
        self.file.seek(self.read)
        while left > 0 and (data := self.block(min(left, BLOCK))):
            left -= len(data)
            for text in self.cut(rest, data):
                number += 1
                yield number, text

    def follow(self, stop, idle):
        """Yields the number and the text of each further line as the file grows, as `lines` does.

        Ends when the event `stop` is set. Ends too when the file has not grown for `idle` seconds, unless `idle` is `None`.
        Yields `None` each time it has reached the end of the file, and every MOMENT seconds while there is more to read.
        """
        number, rest, last_growth = 1, [], time.monotonic()
        last_yield = last_growth
        self.file.seek(self.read)
        while not stop.is_set():
            data = self.block(BLOCK)
            for text in self.cut(rest, data):
                number += 1
                yield number, text
            now = time.monotonic()
            if not data or now - last_yield >= MOMENT:
                last_yield = now
                yield None
            if data:
                last_growth = now
                continue
            if idle is not None and now - last_growth >= idle:
                return
            stop.wait(PAUSE)

    def cut(self, rest, data):
        """Yields the lines that end in `data`. `rest`: the pieces of an unfinished line before `data`, and afterwards the new one."""
        *ended, tail = data.split(b"\n")
        for text in ended:
            text = b"".join([*rest, text])
            self.read += len(text) + 1
            rest.clear()
            yield text
        rest.append(tail)


class Printed:
    """Parses the output of the replay as it arrives.

    The text of an answer may contain line ends, so an answer is complete only when the next one begins or the output ends.
    """

    def __init__(self):
        self.pieces, self.number, self.status, self.rows = [], None, None, []

    def add(self, data):
        """Yields the line number, the status and the text of each answer that is complete with `data`."""
        *ended, tail = data.split(b"\n")
        for row in ended:
            row = b"".join([*self.pieces, row])
            self.pieces = []
            begins = PRINTED.match(row)
            if not begins:
                self.rows.append(row)
                continue
            yield from self.end()
            self.number, self.status, self.rows = int(begins[1]), begins[2].decode("ascii"), [row[begins.end() :]]
        self.pieces.append(tail)

    def end(self):
        """Yields the pending answer, if there is one. To be called when the next one begins, or at the end of the output."""
        if self.number is not None:
            yield self.number, self.status, b"\n".join(self.rows)
        self.number = None


class Replay:
    """A running replay, started with the first line of a record."""

    def __init__(self, first, output=subprocess.PIPE):
        """Starts the program and writes the line `first` to it. Raises `UsageError` if it cannot be started."""
        try:
            # If this process reads the output, Ctrl-C must interrupt this process alone.
            is_alone = output is subprocess.PIPE
            self.process = subprocess.Popen([REPLAY, "--record", "-"], stdin=subprocess.PIPE, stdout=output, start_new_session=is_alone)
        except OSError as error:
            raise UsageError(f"cannot start {REPLAY}: {error.strerror}") from error
        self.printed, self.feeder = Printed(), None
        # The exception due to which it did not get the whole record; whether `kill` ended it.
        self.failed, self.is_killed = None, False
        self.write(first + b"\n")

    def write(self, data):
        """Writes `data` to its input, buffered, and returns True. Returns False if its input is closed."""
        try:
            self.process.stdin.write(data)
            return True
        except (BrokenPipeError, ValueError):
            return False

    def feed(self, parts):
        """Starts a thread that writes `parts` to its input, and then closes it.

        A part that is `None` means: flush. If `parts` raises an exception, the input is closed too, and `end` raises the exception.
        """

        def run():
            try:
                for it in parts:
                    if it is None:
                        self.flush()
                    elif not self.write(it):
                        break
            except ReplayError as error:
                self.failed = error
            except Exception as error:  # pylint: disable=broad-exception-caught
                self.failed = ReplayError(f"the replay was not given the whole record: {error!r}")
            finally:
                self.close()

        self.feeder = threading.Thread(target=run, daemon=True)
        self.feeder.start()

    def flush(self):
        """Flushes its input. Does nothing if that is closed."""
        try:
            self.process.stdin.flush()
        except (BrokenPipeError, ValueError):
            pass

    def close(self):
        """Closes its input."""
        try:
            self.process.stdin.close()
        except BrokenPipeError:
            pass

    def answers(self):
        """Yields the line number, the status and the text of each answer until the program has ended. Then raises as `end` does."""
        while data := self.process.stdout.read1(BLOCK):
            yield from self.printed.add(data)
        yield from self.printed.end()
        self.end()

    def end(self):
        """Waits until the program has ended. Raises `ReplayError` if its status is not 0, or if it did not get the whole record."""
        status = self.process.wait()
        if self.failed:
            raise self.failed
        if status != 0:
            raise ReplayError(f"the replay ended with status {status}")

    def kill(self):
        """Kills the program, and waits at most TIMEOUT_SECONDS seconds for the thread that feeds it."""
        self.is_killed = True
        self.process.kill()
        self.process.wait()
        if self.feeder:
            self.feeder.join(TIMEOUT_SECONDS)
