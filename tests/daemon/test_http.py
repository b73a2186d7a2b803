"""Requests of HTTP: limits of bodies, queries and heads, transfer codings, methods, and media types."""
import json

import pytest

from daemon import FORM, MORE_MESSAGES, MOST_MESSAGES, expect_events, expect_status, get, open_session, poll, post, post_coded, subscribe

JSON = b"application/json"
# The most bytes of a body in a daemon with a small limit.
LITTLE = 200
# The bytes of a query that is accepted, and of one that makes the request line too long.
QUERY, LONG_QUERY = (64 << 10) - 100, 66_000


@pytest.mark.parametrize("flags", [[], ["--readers", "localhost:0"]], ids=["main", "readers"])
def test_body_or_query_of_the_limit_is_accepted_and_one_byte_more_is_not(daemon, client, flags):
    server = daemon("--body", str(LITTLE), "--connections", "5", *flags)
    connection, *others = (client(server.readers if flags else server.address) for _ in range(5))
    body, query = b"[%s]" % (b" " * (LITTLE - 2)), b"message=[%s]" % (b"+" * (LITTLE - len(b"message=[]")))
    for request in (post(body), post(query, FORM), post_coded([b" chunked"], body=body)):
        assert expect_status(connection, request, 200) == b"[]"
    assert expect_status(connection, get(b"?" + query), 200) == b"jsonpcallback([])"
    too_large = (
        get(b"?%s+" % query),
        b"POST /cometd HTTP/1.1\r\nhost: h\r\ncontent-length: %d\r\n\r\n" % (LITTLE + 1),
        post(query + b"+", FORM),
        post_coded([b" chunked"], body=body + b" "),
    )
    for it, request in zip(others, too_large):
        expect_status(it, request, 413)
    for it in (connection, *others):
        it.socket.close()
    server.expect_end()


@pytest.mark.parametrize("count, status", [(12, 200), (100, 200), (101, 431)])
def test_head_has_at_most_a_hundred_fields(daemon, client, count, status):
    fields = b"".join(b"x-%d: a\r\n" % it for it in range(count - 2))
    request = b"POST /cometd HTTP/1.1\r\nhost: h\r\n%scontent-length: 2\r\n\r\n[]" % fields
    expect_status(client(daemon()), request, status)


@pytest.mark.parametrize("size, status", [(QUERY, 200), (LONG_QUERY, 414)])
def test_request_line_has_at_most_64_kilobytes(daemon, client, size, status):
    expect_status(client(daemon()), get(b"?message=[%s]" % (b"+" * size)), status)


# The values of the fields of a transfer coding. A proof decides on those that end with chunked, and the library of HTTP on the others.
CODINGS = {
    200: ([b" chunked"], [b"\t Chunked \t"]),
    501: ([b" gzip, chunked"], [b" , chunked"], [b" gzip", b" chunked"]),
    400: ([b" gzip"], [b" chunked, gzip"], [b" chunked", b" chunked"], [b" chunked", b" gzip"], [b""]),
}


def test_only_the_transfer_coding_chunked_is_accepted(daemon, client):
    server = daemon()
    for status, values in CODINGS.items():
        for it in values:
            assert expect_status(client(server), post_coded(it), status) in (b"[]", b"")
    expect_status(client(server), post_coded([b" gzip, chunked"], b"GET", b"/cometd?message=[]"), 501)


@pytest.mark.parametrize("flags", [[], ["--readers", "localhost:0"]], ids=["main", "readers"])
def test_without_callback_polling_only_posts_of_json_are_accepted(daemon, client, flags):
    """The metrics count the others."""
    server = daemon("--no-callback-polling", "--connections", "8", *flags)
    address = server.readers if flags else server.address
    connection = client(address)
    for kind in (JSON, b"APPLICATION/json ; charset=utf-8"):
        expect_status(connection, post(b"[]", kind), 200)
    for kind in (b"", b"text/plain", FORM, b"multipart/form-data", b"application/jsonx", b"text/plain;application/json"):
        expect_status(client(address), post(b"[]", kind), 415, "the content type is not application/json")
    expect_status(client(address), post(b"[]").replace(b"content-type", b"content-tipe"), 415, "the content type is not application/json")
    expect_status(connection, get(b"?message=[]"), 403, "callback-polling is off")
    counts = {'{status="415",reason="the content type is not application/json"}': 7, '{status="403",reason="callback-polling is off"}': 1}
    server.expect({("bayeux_requests_refused_total", labels): count for labels, count in counts.items()})
    connection.socket.close()
    server.expect_end()


# Requests that are rejected before their bodies are read, and the status and reason of the response.
BEFORE_THE_BODY = [
    (post(b"[]", path=b"/"), 404, "Bayeux is at /cometd"),
    (post(b"[]").replace(b"POST", b"PUT"), 405, "the method is neither GET nor POST"),
    (post(b"[%s]" % (b" " * LITTLE)), 413, "the request is too large"),
    (post(b"[]", b"text/plain"), 415, "the content type is not application/json"),
    (post_coded([b" gzip, chunked"]), 501, "the transfer coding is not chunked"),
]


@pytest.mark.parametrize("request_, status, reason", BEFORE_THE_BODY, ids=lambda it: f"{it}" if isinstance(it, int) else "")
def test_connection_ends_after_an_error_before_the_body(daemon, client, request_, status, reason):
    """Otherwise, a client would send its next request over it. The response says so. After an error in the messages, it goes on."""
    server = daemon("--no-callback-polling", "--body", str(LITTLE))
    with client(server) as connection:
        expect_status(connection, post(b"["), 400, "the messages are not JSON")
        connection.send(request_)
        response = connection.response()
        found = response.status, response.fields.get(b"bayeux-error"), response.fields.get(b"connection")
        assert found == (status, reason.encode(), b"close")
        assert connection.read_to_end() == []


@pytest.mark.parametrize("most", [2, MOST_MESSAGES])
def test_request_has_at_most_the_messages_of_the_flag(daemon, client, most):
    """With more, it is rejected as a whole."""
    connection = client(daemon("--messages", str(most)))
    messages = [{"channel": "/many", "data": it} for it in range(most + 1)]
    session = open_session(connection)
    subscribe(connection, "/many", session)
    for count, status in ((most, 200), (most + 1, 400)):
        reason = MORE_MESSAGES if most < MOST_MESSAGES else "too many messages in one request"
        expect_status(connection, post(json.dumps([{**it, **session} for it in messages[:count]]).encode()), status, *[reason] * (status == 400))
    expect_events(poll(connection, session), messages[:most])
