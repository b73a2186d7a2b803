"""Byte streams that are not valid HTTP, or valid HTTP that arrives in an unusual way."""
import contextlib
import socket
import struct

from daemon import Connection, ConnectionEnded, post
from documents import broken, check_response, document, messages_of

# The statuses that a response to arbitrary bytes may have.
STATUSES = {200, 400, 404, 405, 413, 414, 431, 501}
HEADS = [
    *(b"GET", b"GET /", b"GET / HTTP/1.1", b"GET / HTTP/1.1\r\n", b"GET / HTTP/1.1\r\nhost: h\r\n", b"POST /cometd HTTP/9.9\r\n\r\n"),
    *(b"POST /cometd HTTP/1.1\r\n\r\n", b"GET /\x00 HTTP/1.1\r\nhost: h\r\n\r\n", b" GET / HTTP/1.1\r\nhost: h\r\n\r\n", b"\r\n\r\n\r\n"),
    *(b"GET / HTTP/1.1\r\nhost h\r\n\r\n", b"GET / HTTP/1.1\r\nhost: h\r\nhost: i\r\n\r\n", b"GET / HTTP/1.1\r\n host: h\r\n\r\n"),
    b"GET /cometd?%s HTTP/1.1\r\nhost: h\r\n\r\n" % (b"a" * 70000),
    b"GET / HTTP/1.1\r\nhost: h\r\n%s\r\n" % (b"a: b\r\n" * 101),
    b"GET / HTTP/1.1\r\nhost: h\r\na: %s\r\n\r\n" % (b"b" * 70000),
    b"PRI * HTTP/2.0\r\n\r\nSM\r\n\r\n",
    b"\x16\x03\x01\x02\x00\x01\x00\x01\xfc\x03\x03",
    b"POST /cometd HTTP/1.1\r\nhost: h\r\ncontent-length: -1\r\n\r\n",
    b"POST /cometd HTTP/1.1\r\nhost: h\r\ncontent-length: 1\r\ncontent-length: 2\r\n\r\n[]",
    *(b"POST /cometd HTTP/1.1\r\nhost: h\r\ncontent-length: 99999999999999999999\r\n\r\n", b"POST /cometd HTTP/1.0\r\ncontent-length: 2\r\n\r\n[]"),
    b"POST /cometd HTTP/1.1\r\nhost: h\r\ncontent-length: 2\r\ntransfer-encoding: chunked\r\n\r\n0\r\n\r\n",
    b"OPTIONS * HTTP/1.1\r\nhost: h\r\n\r\n",
    *(b"POST /cometd HTTP/1.1\r\nhost: h\r\ntransfer-encoding: gzip, chunked\r\n\r\n0\r\n\r\n", b"CONNECT h:1 HTTP/1.1\r\nhost: h\r\n\r\n"),
    *(b"POST http://h/cometd HTTP/1.1\r\nhost: h\r\ncontent-length: 2\r\n\r\n[]", b"HEAD /cometd HTTP/1.0\r\n\r\n"),
    *(b"GET /cometd HTTP/1.1\r\nhost: h\r\nconnection: upgrade\r\nupgrade: websocket\r\n\r\n", b"GET /cometd HTTP/1.1\nhost: h\n\n"),
]
# What changes a request in place of tokens of JSON: lengths of chunks, and characters that mean something in a head.
LENGTHS = [b"0", b"00", b"1", b"-1", b"fffffffffffffffff", b"ffffffffffffffff", b"7fffffffffffffff", b"g", b"", b"1 ", b"1;a=b", b"+1", b"0x1"]
MARKS = [*LENGTHS, b"\r\n", b"\n", b"\x00", b":", b" ", b"\xff", b"x", b";" * 20000]
# The bytes of most heads.
HEAD = 120


def request(random, body):
    """Returns a POST of `body`, sometimes in chunks of random sizes, and then sometimes with a trailer."""
    if random.random() < 0.5:
        return post(body)
    made = b"POST /cometd HTTP/1.1\r\nhost: h\r\ncontent-type: application/json\r\ntransfer-encoding: chunked\r\n\r\n"
    while body:
        size = random.choice((1, 2, 7, 100, 4096, 1 << 20))
        made += b"%x%s\r\n%s\r\n" % (len(body[:size]), random.choice((b"", b"", b";a=b")), body[:size])
        body = body[size:]
    return made + b"0\r\n" + random.choice((b"", b"", b"a: b\r\n")) + b"\r\n"


def stream(random, clients):
    """Returns some bytes, which are mostly not valid HTTP."""
    way = random.randrange(6)
    if way == 0:
        return random.randbytes(random.choice((0, 1, 16, 200, 70000)))
    if way == 1:
        return random.choice(HEADS)
    *before, data = (request(random, document(random, clients)) for _ in range(random.choice((1, 1, 2, 4))))
    size = random.choice((HEAD, len(data)))
    return b"".join(before) + broken(random, data[:size], MARKS) + data[size:] + random.choice((b"", b"", post(b"[]"), b"\r\n", b"GET"))


def cut(random, clients):
    """Returns valid requests, cut off at a random byte."""
    made = b"".join(request(random, document(random, clients)) for _ in range(random.choice((1, 1, 2, 5))))
    return made[: random.randrange(len(made) + 1)]


def end(random, address, data):
    """Sends `data` on a new connection, and closes or resets it, or shuts down the sending side and checks the statuses of responses."""
    way = random.choice(("half", "half", "close", "reset"))
    with Connection(address) as connection:
        with contextlib.suppress(ConnectionEnded, OSError):
            connection.send(data)
            if way == "half":
                connection.socket.shutdown(socket.SHUT_WR)
        if way == "reset":
            connection.socket.setsockopt(socket.SOL_SOCKET, socket.SO_LINGER, struct.pack("ii", 1, 0))
        if way == "half":
            assert {it.status for it in connection.read_to_end()} <= STATUSES


def check_slow(random, address):
    """Sends 20 requests in small pieces, on 20 connections at the same time, and checks the responses."""
    left, cases = {}, []
    with contextlib.ExitStack() as stack:
        for _ in range(20):
            body = document(random, ["x"])
            connection = stack.enter_context(Connection(address))
            left[connection] = request(random, body)
            cases.append((connection, messages_of(body)))
        while any(left.values()):
            for connection, data in left.items():
                size = max(1, random.randrange(1 + len(data) // 10))
                connection.send(data[:size])
                left[connection] = data[size:]
        for connection, messages in cases:
            check_response(messages, connection.response())
