"""Random requests, right and wrong, and checks of the responses to them.

Whether a document is valid JSON is decided by Python's own parser.
"""
import json
import math
import re
import urllib.parse

from daemon import MOST_MESSAGES, post

DEPTH = 127
# The most bytes of a query. The library of HTTP rejects request lines of more than some 64 KiB.
HEAD = 60000
ERROR = re.compile(r"[0-9]{3}::.+")
NAME = re.compile(r"[A-Za-z0-9_$.\-\[\]]{1,256}")
CHANNELS = [
    *("/meta/handshake", "/meta/connect", "/meta/subscribe", "/meta/unsubscribe", "/meta/disconnect"),
    *("/a/b", "/a/b/c", "/a", "/service/x", "/meta/x", "/meta", "/", "", "a", "/a//b", "/a/", "/a/*", "/a/**", "/a b"),
    *("/\u00e9/\U0001f600", "/a\u0000", "/" + "a" * 255, "/" + "a" * 256, "/a" * 32, "/a" * 33, "/\u2028", "/a\\\"b"),
]
VALUES: list[object] = [None, True, False, 0, -0.0, 7, -1, 2**63, 2**64, 1e300, 1.5, "", "x", "\u2028\u2029", "\u0000", [], {}, [[1], {"a": []}]]
TOKENS = [
    *(b'"', b"\\", b"{", b"}", b"[", b"]", b",", b":", b"\\u0000", b"\\ud800", b"\\udc00\\ud800", b"\\ud83d\\ude00", b"\xff"),
    *(b"\x00", b"\xc0\x80", b"\xed\xa0\x80", b"\xf4\x90\x80\x80", b"\xef\xbb\xbf", b"1e999", b"-1e999", b"-0", b"01", b"1.", b".5"),
    *(b"NaN", b"Infinity", b"true", b"nul", b"9" * 400, b"1e-999", b"\n", b"\x1f", b"\x7f", b"\xc2\xa0", b"//", b'"a":1', b"[" * 200),
]


def finite(text):
    """Converts a number. Raises `ValueError` if it is outside the range of a double, or a constant that JSON does not have."""
    if not math.isfinite(float(text)):
        raise ValueError(text[:20])
    return float(text)


def members(pairs):
    """Returns the object with the members `pairs`. Raises `UnicodeEncodeError` if a string is not valid Unicode, also of one that is replaced."""
    json.dumps(pairs, ensure_ascii=False).encode("utf-8")
    return dict(pairs)


def depth(text):
    """Returns how many levels of brackets the JSON text `text` has."""
    now = most = 0
    for found in re.finditer(r'"(?:[^"\\]|\\.)*"|[\[{]|[\]}]', text, re.DOTALL):
        now += {"[": 1, "{": 1, "]": -1, "}": -1}.get(found[0], 0)
        most = max(most, now)
    return most


def messages_of(body):
    """Returns the messages of the document `body`, or `None` if the daemon must reject it."""
    try:
        text = body.decode("utf-8")
        kinds = {"parse_constant": finite, "parse_float": finite, "parse_int": lambda it: int(it) if finite(it) else 0}
        read = json.loads(text, object_pairs_hook=members, **kinds)
        json.dumps(read, ensure_ascii=False).encode("utf-8")
    except (ValueError, RecursionError):
        return None
    found = [read] if isinstance(read, dict) else read
    if depth(text) > DEPTH or not isinstance(found, list) or not all(isinstance(it, dict) for it in found):
        return None
    if len(found) > MOST_MESSAGES or not all(isinstance(it.get("channel"), str) for it in found):
        return None
    return found


def joined(bodies):
    """Returns the messages of all documents in `bodies`, or `None` if one is not valid, or if there are too many messages."""
    found = [messages_of(body) for body in bodies]
    if None in found or sum(len(it) for it in found) > MOST_MESSAGES:
        return None
    return [message for part in found for message in part]


def check_items(messages, items):
    """Checks that `items` are valid replies to `messages` in order. There may be events between the replies."""
    replies = [it for it in items if "successful" in it]
    assert [it["channel"] for it in replies] == [it["channel"] for it in messages]
    for wanted, reply in zip(messages, replies):
        has_id = isinstance(wanted.get("id"), (str, int, float)) and not isinstance(wanted["id"], bool)
        assert ("id" in reply) == has_id and (not has_id or reply["id"] == wanted["id"]), (wanted, reply)
        assert ("error" not in reply) if reply["successful"] is True else ERROR.fullmatch(reply["error"]), reply
    assert all({"channel", "data"} <= set(it) <= {"channel", "data", "id"} for it in items if "successful" not in it), items


def check_response(messages, response, name=None):
    """Checks the response to a request with `messages`, or the error response to one that is not valid if they are `None`.

    `name`: that of the callback, which may not be valid either, or `None`.
    """
    if messages is None or not (name is None or NAME.fullmatch(name)):
        assert (response.status, response.body) == (400, b"")
        return
    kind, before, after = ("json", b"", b"") if name is None else ("javascript", name.encode() + b"(", b")")
    assert (response.status, response.fields[b"content-type"]) == (200, f"application/{kind};charset=UTF-8".encode()), response.body[:200]
    assert response.body.startswith(before) and response.body.endswith(after)
    check_items(messages, json.loads(response.body[len(before) : len(response.body) - len(after)]))


def message(random, clients, wrong=0.2):
    """Returns a random message of one of `clients`. With probability `wrong`, one member gets an arbitrary value."""
    channel = random.choice(CHANNELS[: random.choice((5, 9, len(CHANNELS)))])
    made = {"channel": channel, "clientId": random.choice(clients)}
    if channel == "/meta/handshake":
        made.update(version="1.0", supportedConnectionTypes=["long-polling", "callback-polling"])
        made["ext"] = {"ack": random.choice([True, False, None])}
    elif channel == "/meta/connect":
        made.update(connectionType="long-polling", advice={"timeout": random.choice([0, 0, 0, 1, 20])})
        made["ext"] = {"ack": random.choice([0, 1, 2, 2**64, -1, "1", 1.0])}
    elif channel in ("/meta/subscribe", "/meta/unsubscribe"):
        made["subscription"] = random.choice(["/a/b", "/a/*", "/a/**", "/**", "/*", "/service/**", "/meta/*", "/x*", ["/a/b", "/c"]])
    else:
        made["data"] = random.choice(VALUES)
    if random.random() < 0.5:
        made["id"] = random.choice(VALUES)
    if random.random() < wrong:
        made[random.choice(list(made))] = random.choice(VALUES)
    return made


def nested(random, levels):
    """Returns a JSON text of arrays and objects with `levels` levels."""
    kinds = [random.random() < random.choice((0.0, 0.5, 1.0)) for _ in range(levels)]
    return "".join('{"a":' if it else "[" for it in kinds) + "1" + "".join("}" if it else "]" for it in reversed(kinds))


def document(random, clients):
    """Returns a random document, which is mostly valid. `clients`: client ids."""
    count = random.choice((0, 1, 1, 1, 1, 2, 3, 5, 9))
    if random.random() < 0.005:
        count = random.choice((64, 256, 257))
    made = [message(random, clients, 0.2 if count < 10 else 0.0) for _ in range(count)]
    text = json.dumps(made[0] if len(made) == 1 and random.random() < 0.5 else made, ensure_ascii=random.random() < 0.5)
    return text.encode("utf-8", "replace")


def broken(random, body, tokens=TOKENS):
    """Returns `body` with some bytes replaced, removed, or added. Many of them are `tokens`."""
    made = bytearray(body)
    for _ in range(random.choice((1, 1, 1, 2, 3, 8))):
        at, end = sorted(random.randrange(len(made) + 1) for _ in range(2))
        levels = random.choice((1, 60, 124, 125, 126, 127, 128, 300))
        texts = b"", random.choice(tokens), random.choice(tokens), random.randbytes(1), made[at:end][:300], nested(random, levels).encode()
        made[at : at + random.choice((0, 0, 1, 1, 2, 9, len(made)))] = random.choice(texts)
    return bytes(made)


def some(random, clients):
    """Returns a random document. Most have random changes."""
    body = document(random, clients)
    return broken(random, body) if random.random() < 0.7 else body


def escaped(random, text):
    """Returns `text` with percent-encoding. Brackets, colons, commas and slashes sometimes stay as they are."""
    return urllib.parse.quote_from_bytes(text, safe=random.choice(("", "[]:,/"))).encode()


def parameters(random, clients):
    """Returns a random query: up to three documents, often the name of a callback, and sometimes other parameters."""
    parts = [b"message=" + escaped(random, some(random, clients)) for _ in range(random.choice((0, 1, 1, 1, 2, 3)))]
    if random.random() < 0.7:
        names = ("cb", "a.b[0]$_-", "", "x y", "a(b", "n" * 256, "n" * 257, "\u00e9", "jsonp")
        parts.append(b"jsonp=" + escaped(random, random.choice(names).encode()))
    parts += random.choice(([], [], [b""], [b"="], [b"a=b"], [b"message"], [b"%6dessage=[]"], [b"message=%ff%5b%5d"], [b"jsonp=%2"], [b"+"]))
    random.shuffle(parts)
    return b"&".join(parts)


def read_parameters(query):
    """Returns the name of the callback and the messages of `query`, or `None` if there is no document, or one is not valid."""
    pairs = urllib.parse.parse_qsl(query.decode(), keep_blank_values=True, errors="replace")
    names = [value for name, value in pairs if name == "jsonp"]
    bodies = [value.encode() for name, value in pairs if name == "message"]
    return (names or ["jsonpcallback"])[-1], joined(bodies) if bodies else None


def post_case(random, clients):
    """Returns a POST of a random JSON document, and a function that checks the response."""
    body = some(random, clients)
    messages = messages_of(body)
    kind = random.choice((b"application/json", b"application/json;charset=UTF-8", b"text/plain", b"", b"\xff"))
    return post(body, kind, random.choice((b"/cometd", b"/cometd/", b"/cometd/x?y"))), lambda it: check_response(messages, it)


def form_case(random, clients):
    """Returns a POST of a random form, and a function that checks the response."""
    body = parameters(random, clients)
    _, messages = read_parameters(body)
    kind = random.choice((b"application/x-www-form-urlencoded", b"Application/X-WWW-form-urlencoded ; charset=UTF-8"))
    return post(body, kind), lambda it: check_response(messages, it)


def get_case(random, clients):
    """Returns a GET with a random query of at most `HEAD` bytes, and a function that checks the response."""
    query = parameters(random, clients)
    while len(query) > HEAD:
        query = parameters(random, clients)
    name, messages = read_parameters(query)
    return b"GET /cometd?%s HTTP/1.1\r\nhost: h\r\n\r\n" % query, lambda it: check_response(messages, it, name)
