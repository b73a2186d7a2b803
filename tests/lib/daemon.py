"""A daemon that runs, connections to it, and requests and their responses."""
import contextlib
import datetime
import fcntl
import json
import os
import pathlib
import re
import resource
import socket
import struct
import termios
import time
import urllib.parse

from base import TIMEOUT_SECONDS, end, readable, wait_until

# The seed of the daemons. No two bytes are equal, so that a byte read at a wrong place is noticed.
SEED = bytes(range(1, 33)).hex()
# The most messages of a request, and how many requests are sent at a time.
MOST_MESSAGES, AT_ONCE = 256, 200
# Why a request with more messages than --messages is rejected.
MORE_MESSAGES = "more messages in one request than the server accepts"
# With this environment, each large body or event has pages of its own, which the system gets back once it is freed, and all threads
# have the other memory in common. So the resident memory does not depend on which thread served a request.
OWN_PAGES = {"MALLOC_MMAP_THRESHOLD_": "65536", "MALLOC_ARENA_MAX": "1"}
# For how long the processor time of a daemon is measured, in seconds.
MOMENT = 1.0
FORM = b"application/x-www-form-urlencoded"
CONNECT = {"channel": "/meta/connect", "connectionType": "long-polling"}
HANDSHAKE = {"channel": "/meta/handshake", "version": "1.0", "supportedConnectionTypes": ["long-polling"]}


class ConnectionEnded(AssertionError):
    """The connection ended before the response was complete."""


class Daemon:
    """A running bayeuxd, which a subclass starts. A context manager that ends it.

    `process`: its process. `errors`: the file to which it writes standard error.
    """

    def __enter__(self):
        return self

    def __exit__(self, *_):
        self.end()

    def wait(self):
        """Waits for the first line of standard output, which must say that the daemon listens, and reads the address from it."""
        line = self.process.stdout.readline().decode()
        assert line.startswith("listening "), f"{line!r} {self.log_tail()!r}"
        host, _, port = line.split()[1].rpartition(":")
        self.address = (host.strip("[]"), int(port))

    def logged_address(self, prefix):
        """Returns the host and port that follow `prefix` at the end of a log line."""
        found = re.search(f"{prefix}(\\S+):([0-9]+)$", self.full_log().decode(), re.MULTILINE)
        assert found, f"no line with {prefix!r}: {self.log_tail()!r}"
        return (found.group(1).strip("[]"), int(found.group(2)))

    def wait_for_log(self, pattern):
        """Waits until the last 2,000 bytes of the log match `pattern`, and returns the match."""
        return wait_until(f"the log has {pattern!r}", lambda: re.search(pattern, self.log_tail().decode(errors="replace")))

    def failed_requests(self):
        """Returns the lines of the log about failed requests, each as its time, reason, listener, and count."""
        line = r'^(\S+)Z \[WARN  bayeuxd\] requests failed reason="([^"]+)" listener=([a-z-]+) count=([0-9]+)$'
        found = re.findall(line, self.timed_log().decode(), re.MULTILINE)
        return [(datetime.datetime.strptime(moment, "%Y-%m-%dT%H:%M:%S.%f"), *names, int(count)) for moment, *names, count in found]

    def log_tail(self):
        """Returns the last 2,000 bytes that the daemon wrote to standard error, without the times of log lines."""
        return self.full_log()[-2000:]

    def full_log(self):
        """Returns all that the daemon wrote to standard error, without the times of log lines."""
        return re.sub(rb"(?m)^[0-9-]{10}T[0-9:.]{12}Z ", b"", self.timed_log())

    def timed_log(self):
        """Returns all that the daemon wrote to standard error, with the times of log lines."""
        # The daemon writes at the file's position, so this reads without moving it.
        return os.pread(self.errors.fileno(), os.fstat(self.errors.fileno()).st_size, 0)

    def check_alive(self):
        """Checks that the process runs."""
        assert self.process.poll() is None, f"status {self.process.returncode}: {self.log_tail()!r}"

    def proc(self, name):
        """Returns the text of a file that the system has of the process."""
        return pathlib.Path(f"/proc/{self.process.pid}/{name}").read_text(encoding="utf-8", errors="replace")

    def kilobytes(self):
        """Returns the resident memory of the process, in units of 1,024 bytes."""
        return int(re.findall(r"VmRSS:\s+([0-9]+)", self.proc("status"))[0])

    def descriptors(self):
        """Returns how many file descriptors the process has open."""
        return len(os.listdir(f"/proc/{self.process.pid}/fd"))

    @contextlib.contextmanager
    def without_descriptors(self):
        """Limits the file descriptors of the process, so that none is free. An accept that waits already has one."""
        used = os.listdir(f"/proc/{self.process.pid}/fd")
        free = next(number for number in range(len(used) + 1) if str(number) not in used)
        limits = resource.prlimit(self.process.pid, resource.RLIMIT_NOFILE)
        resource.prlimit(self.process.pid, resource.RLIMIT_NOFILE, (free, limits[1]))
        yield
        resource.prlimit(self.process.pid, resource.RLIMIT_NOFILE, limits)

    def threads(self):
        """Returns the threads of the process, as a set of their numbers in decimal."""
        return set(os.listdir(f"/proc/{self.process.pid}/task"))

    def is_waiting(self, thread):
        """Returns whether a thread of the process waits. Otherwise it runs, or needs a processor."""
        with contextlib.suppress(FileNotFoundError, ProcessLookupError):
            return self.proc(f"task/{thread}/stat").rpartition(")")[2].split()[0] != "R"
        return True

    def wait_for_rest(self):
        """Waits until each thread has waited several times, so that the process has done what was asked of it before."""
        for _ in range(4):
            for thread in self.threads():
                wait_until("a thread waits", lambda thread=thread: self.is_waiting(thread), pause=0.001)

    def wait_until_idle(self, what):
        """Waits until the process uses at most a tenth of a processor for a moment. `what`: what it waits for."""

        def is_idle():
            begun, before = time.monotonic(), self.processor_seconds()
            time.sleep(MOMENT)
            return self.processor_seconds() - before <= (time.monotonic() - begun) / 10

        wait_until(f"the daemon takes little processor time while it waits for {what}", is_idle)

    def processor_seconds(self):
        """Returns the processor time that the process has used so far, in seconds."""
        fields = self.proc("stat").rpartition(")")[2].split()
        return (int(fields[11]) + int(fields[12])) / os.sysconf("SC_CLK_TCK")

    def run_seconds(self):
        """Returns the processor time that the threads of the process have used so far, in seconds with nanoseconds."""
        return sum(int(self.proc(f"task/{it}/schedstat").split()[0]) for it in self.threads()) / 1e9

    def expect_end(self):
        """Waits until the process has ended. Its status must be 0, and its log must end with `ended`."""
        is_right = self.process.wait(TIMEOUT_SECONDS) == 0 and re.search(rb'(\] ended|"event":"ended"})\n\Z', self.full_log())
        assert is_right, f"status {self.process.returncode}: {self.log_tail()!r}"

    def end(self):
        """Terminates the process."""
        end(self.process)
        self.process.stdout.close()
        self.errors.close()


class Response:
    """A complete HTTP response. `fields` has the header fields by their names in lower case."""

    def __init__(self, head, body):
        lines = head.split(b"\r\n")
        self.status = int(lines[0].split()[1])
        self.fields = dict((name.lower(), value.strip()) for name, _, value in (line.partition(b":") for line in lines[1:]))
        self.body = body

    def items(self):
        """Returns the array in the JSON body. The status must be 200."""
        assert self.status == 200, f"{self.body[:200]!r}"
        return json.loads(self.body)


class Connection:
    """A connection to a daemon. A send or a read may take `timeout` seconds.

    `input`: what arrived and was not read. `was_reset`: whether a read found that the daemon has reset the connection.
    """

    def __init__(self, address, timeout=TIMEOUT_SECONDS):
        self.address, self.timeout = address, timeout
        self.open()

    def open(self):
        """Opens the connection."""
        self.socket = socket.create_connection(self.address, timeout=self.timeout)
        self.socket.setsockopt(socket.IPPROTO_TCP, socket.TCP_NODELAY, 1)
        self.input, self.was_reset = b"", False

    def renew(self):
        """Opens the connection again if the daemon has ended an idle one. No response may be outstanding."""
        if readable(self.socket):
            self.socket.close()
            self.open()

    def __enter__(self):
        return self

    def __exit__(self, *_):
        self.socket.close()

    def send(self, data):
        """Sends all of `data`. Raises `ConnectionEnded` if the daemon has ended the connection."""
        try:
            self.socket.sendall(data)
        except socket.timeout as error:
            raise AssertionError("nothing is taken any more") from error
        except OSError as error:
            raise ConnectionEnded(f"ended while it was sent to: {error}") from error

    def unread_bytes(self):
        """Returns how many of the bytes that were sent the daemon has not read yet. Returns 0 if the connection has ended."""
        (on_the_way,) = struct.unpack("i", fcntl.ioctl(self.socket, termios.TIOCOUTQ, bytes(4)))
        own, other = (f":{it:04X}" for it in (self.socket.getsockname()[1], self.address[1]))
        with open("/proc/net/tcp", encoding="ascii") as lines:
            for _, local, remote, _, queues, *_ in map(str.split, lines):
                if local.endswith(other) and remote.endswith(own):
                    return on_the_way + int(queues.partition(":")[2], 16)
        return 0

    def wait_until_read(self):
        """Waits until the daemon has read all that was sent."""
        wait_until("the daemon has read what was sent", lambda: self.unread_bytes() == 0, pause=0.005)

    def receive(self):
        """Appends the next bytes to `input`. Returns `False` if the connection has ended."""
        try:
            data = self.socket.recv(1 << 16)
        except socket.timeout as error:
            raise AssertionError(f"no answer; so far {self.input[:200]!r}") from error
        except ConnectionError:
            self.was_reset = True
            return False
        self.input += data
        return bool(data)

    def response(self):
        """Returns the next response. Raises `ConnectionEnded` if the connection ends first. Only a 405 may omit its length."""
        while b"\r\n\r\n" not in self.input:
            if not self.receive():
                raise ConnectionEnded(f"ended before a head was whole: {self.input[:200]!r}")
        head, _, rest = self.input.partition(b"\r\n\r\n")
        response = Response(head, b"")
        assert response.status == 405 or b"content-length" in response.fields, f"no length: {head!r}"
        size = int(response.fields.get(b"content-length", b"0"))
        self.input = rest
        while len(self.input) < size:
            if not self.receive():
                raise ConnectionEnded(f"ended within a body of {size} bytes: {head!r}")
        response.body, self.input = self.input[:size], self.input[size:]
        return response

    def read_to_end(self):
        """Reads until the daemon ends the connection, and returns all responses."""
        while self.receive():
            pass
        responses = []
        while self.input:
            responses.append(self.response())
        return responses

    def ask(self, messages):
        """Posts `messages`, and returns the items of the response, whose status must be 200."""
        self.send(post(json.dumps(messages).encode()))
        response = self.response()
        assert response.status == 200, f"for {messages}"
        return response.items()

    def repeat(self, request, count):
        """Sends `request` `count` times, `AT_ONCE` at a time, and yields the responses."""
        for at in range(0, count, AT_ONCE):
            more = min(AT_ONCE, count - at)
            self.send(request * more)
            for _ in range(more):
                yield self.response()


class SlowReader(Connection):
    """A connection of IPv4 whose client has a `buffer` of few bytes, and segments of at most `segment` bytes, if given."""

    def __init__(self, address, buffer, segment=None):
        self.options = [(socket.SOL_SOCKET, socket.SO_RCVBUF, buffer), *([(socket.IPPROTO_TCP, socket.TCP_MAXSEG, segment)] if segment else [])]
        super().__init__(address)

    def open(self):
        self.input, self.was_reset, self.socket = b"", False, socket.socket()
        self.socket.settimeout(self.timeout)
        for it in self.options:
            self.socket.setsockopt(*it)
        self.socket.connect(self.address)


def post(body, kind=b"application/json", path=b"/cometd"):
    """Returns a POST of `body` to `path`. `kind`: its content type."""
    return b"POST %s HTTP/1.1\r\nhost: h\r\ncontent-type: %s\r\ncontent-length: %d\r\n\r\n" % (path, kind, len(body)) + body


def post_coded(codings, method=b"POST", target=b"/cometd", body=b"[]"):
    """Returns a request with `body` in one chunk. Each of `codings` is the value of a field of its own."""
    lines = b"".join(b"transfer-encoding:%s\r\n" % it for it in codings)
    return b"%s %s HTTP/1.1\r\nhost: h\r\n%s\r\n%x\r\n%s\r\n0\r\n\r\n" % (method, target, lines, len(body), body)


def get(query, path=b"/cometd"):
    """Returns a GET of `path` followed by `query`, which begins with `?` if it is not empty."""
    return b"GET %s%s HTTP/1.1\r\nhost: localhost\r\n\r\n" % (path, query)


def by_form(*documents):
    """Returns a form with `documents`."""
    return post(b"&".join([b"message=" + urllib.parse.quote_plus(it).encode() for it in documents]), FORM)


def by_callback(document, name=b"jsonp=called&"):
    """Returns a query with `document`. `name`: the parameter with the callback's name, and an ampersand."""
    return get(b"?%smessage=%s" % (name, urllib.parse.quote(document).encode()))


def expect_status(connection, request, status, reason=None):
    """Returns the body of the response to `request`, which must have this status, and `reason` if it is given.

    Only a 200 has a body and no reason. A 405 has the allowed methods. Only an error of the library of HTTP may have no date.
    """
    connection.send(request)
    response = connection.response()
    what = f"{request[:200]!r}, of {len(request)} bytes"
    methods = b"GET, POST" if status == 405 else None
    found = (response.status, response.fields.get(b"allow"), bool(response.body))
    assert found == (status, methods, status == 200), f"{response.fields} {response.body[:80]!r} for {what}"
    said = response.fields.get(b"bayeux-error", b"").decode()
    assert b"date" in response.fields or not (said or status == 200), f"no date in {response.fields} for {what}"
    assert said == (reason or "") or (reason is None and status != 200), f"for {what}"
    return response.body


def expect_success(items, count):
    """Returns `items`, which must be `count` successful replies."""
    assert len(items) == count and all(item.get("successful") for item in items), f"not {count} successful replies: {items}"
    return items


def expect_events(items, events):
    """Checks that `items` are `events` and then a successful reply."""
    assert items[:-1] == events
    expect_success(items[-1:], 1)


def expect_error(items, error):
    """Checks that `items` are one reply with this error."""
    assert [(item.get("successful"), item.get("error")) for item in items] == [(False, error)], f"{items}"


def open_session(connection, **extra):
    """Opens a session, and returns the member with its client id. `extra`: more members of the handshake."""
    return {"clientId": expect_success(connection.ask([{**HANDSHAKE, **extra}]), 1)[0]["clientId"]}


def subscribe(connection, pattern, session):
    """Subscribes a session to `pattern`. `session`: the member with its client id."""
    expect_success(connection.ask([{"channel": "/meta/subscribe", "subscription": pattern, **session}]), 1)


def publish(connection, channel, data, session):
    """Publishes an event. `session`: the member with the client id, or an empty dictionary."""
    expect_success(connection.ask([{"channel": channel, "data": data, **session}]), 1)


def publish_to(address, sessions, events):
    """Subscribes each of `sessions` to the channel of `events`, and then publishes these in the first session."""
    with Connection(address) as connection:
        for session in sessions:
            subscribe(connection, events[0]["channel"], session)
        for event in events:
            publish(connection, event["channel"], event["data"], sessions[0])


def send_connect(connection, session):
    """Sends a connect, and does not wait for the response."""
    connection.send(post(json.dumps([{**CONNECT, **session}]).encode()))


def poll(connection, session):
    """Returns the items of the response to a connect that is not held."""
    return connection.ask([{**CONNECT, "advice": {"timeout": 0}, **session}])


def hold_connect(address, channel):
    """Returns a connection with a connect of a session that is subscribed to `channel`, which need not be held yet."""
    connection = Connection(address)
    session = open_session(connection)
    subscribe(connection, channel, session)
    send_connect(connection, session)
    return connection


def check_serves(address, channel):
    """Checks that the daemon serves a client, which subscribes to `channel`, publishes, gets its event, and disconnects."""
    with Connection(address) as connection:
        session = open_session(connection)
        subscribe(connection, channel, session)
        event = {"channel": channel, "data": {"right": channel}, "id": "p"}
        expect_success(connection.ask([{**event, **session}]), 1)
        items = connection.ask([{**CONNECT, "id": 7, **session}])
        expect_events(items, [event])
        assert items[-1]["id"] == 7, items
        expect_success(connection.ask([{"channel": "/meta/disconnect", **session}]), 1)


def open_many(connection, count):
    """Opens `count` sessions, and returns the members with their client ids."""
    connection.renew()
    responses = connection.repeat(post(json.dumps([HANDSHAKE]).encode()), count)
    return [{"clientId": expect_success(it.items(), 1)[0]["clientId"]} for it in responses]


def close_all(connection, sessions):
    """Ends all `sessions`."""
    connection.renew()
    for at in range(0, len(sessions), AT_ONCE):
        some = sessions[at : at + AT_ONCE]
        expect_success(connection.ask([{"channel": "/meta/disconnect", **it} for it in some]), len(some))


def has_sanitizer(program):
    """Returns `True` if `program` was compiled with AddressSanitizer."""
    with open(program, "rb") as file:
        return b"__asan_init" in file.read()


def with_sanitizer_options(options):
    """Returns the environment with more `options` of AddressSanitizer. They have no effect on a program without it."""
    return {**os.environ, "ASAN_OPTIONS": f"{os.environ.get('ASAN_OPTIONS', '')}:{options}"}
