"""The listener for readers: which messages it rejects, in any form."""
import json
import re

from daemon import HANDSHAKE, MOST_MESSAGES, by_callback, by_form, expect_events, expect_status, expect_success, open_session, poll, post
from daemon import publish, subscribe

READ_ONLY = "the listener is read-only"
# The most bytes of a body.
LIMIT = 1 << 20
# Patterns of the channels to which clients of a readers' listener may publish.
ALLOWED = ["/hall", "/room/*", *(f"/many/{number}" for number in range(40))]
# Messages as JSON.
PUBLISH, SERVICE, META = b'{"channel":"/a","data":1}', b'{"channel":"/service/a","data":1}', b'{"channel":"/meta/none"}'
OPEN = json.dumps(HANDSHAKE).encode()


def in_array(*messages):
    """Returns a JSON array of `messages`."""
    return b"[" + b",".join(messages) + b"]"


# Requests with a message to a broadcast channel, which are rejected only at the readers' listener. A proof says which channels these are.
FORBIDDEN = [
    post(PUBLISH),
    post(in_array(META, SERVICE, PUBLISH, META, OPEN)),
    post(in_array(*[META] * (MOST_MESSAGES - 1), PUBLISH)),
    post(in_array(PUBLISH), path=b"/cometd/x"),
    post(in_array(PUBLISH).ljust(LIMIT)),
    by_form(in_array(OPEN), META, SERVICE, PUBLISH),
    by_callback(in_array(OPEN, PUBLISH), b""),
    *(post(b'[{"channel":"%s"}]' % it) for it in (b"/meta", b"", b"/a b", b"/**", rb"\/a")),
]


def test_message_to_a_broadcast_channel_is_rejected_as_a_whole(daemon, client):
    """Nothing of such a request is admitted, in any form and with the message at any place, and the connection stays open."""
    server = daemon("--readers", "127.0.0.1:0")
    connection, main = client(server.readers), client(server)
    for request in FORBIDDEN:
        expect_status(connection, request, 403, READ_ONLY)
    expect_success(connection.ask([HANDSHAKE]), 1)
    server.expect({("bayeux_requests_admitted_total", ""): 1, ("bayeux_sessions_opened_total", ""): 1})
    for request in FORBIDDEN:
        expect_status(main, request, 200)


def test_channels_that_a_pattern_matches_are_allowed(daemon, client):
    server = daemon("--readers", "127.0.0.1:0", *(f"--readers-publish={it}" for it in ALLOWED))
    readers, publisher = client(server.readers), client(server)
    session = open_session(readers)
    for pattern in ("/hall", "/room/*", "/many/*", "/doors"):
        subscribe(readers, pattern, session)
    publish(readers, "/hall", 1, session)
    publish(readers, "/room/2", 2, session)
    publish(readers, ALLOWED[-1], 3, session)
    for channel in ("/doors", "/hall/1", "/room/2/3", "/room/*", "/many/40"):
        expect_status(readers, post(json.dumps([{"channel": channel, "data": 0, **session}]).encode()), 403, READ_ONLY)
    publish(publisher, "/doors", 4, session)
    channels = ["/hall", "/room/2", ALLOWED[-1], "/doors"]
    expect_events(poll(readers, session), [{"channel": channel, "data": data} for data, channel in enumerate(channels, 1)])
    assert f" readers_publish={','.join(ALLOWED)} " in server.full_log().decode()


def test_output_and_log_name_both_listeners_in_order(daemon):
    server = daemon("--readers", "127.0.0.1:0")
    (_, first), (_, second) = server.address, server.readers
    log = r"starting listen=127\.0\.0\.1:0 readers=127\.0\.0\.1:0 shards=(?s:.*)\n"
    log += rf"\[INFO  bayeuxd\] listening address=\S+:{first}\n\[INFO  bayeuxd\] readers listening address=127\.0\.0\.1:{second}\n"
    assert re.search(log, server.log_tail().decode())
    server.process.stdin.close()
    assert server.process.stdout.read().decode() == f"readers listening 127.0.0.1:{second}\n"
    server.expect_end()
