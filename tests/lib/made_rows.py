"""Makes the rows that are too long to be written out, and has the arguments that bayeux_replay must reject."""
from row_files import expand_macros

# The greatest number of bytes of a body.
BODY = 1_048_576

# What the error message expects of an argument, by the argument's name.
EXPECTATIONS = {
    "shards": "a number from 1 to 64",
    "workers": "a number from 1 to 16",
    "timeout": "a number from 0 to 4294967295",
    "interval": "a number from 0 to 4294967295",
    "max_interval": "a number from 0 to 4294967295",
    "options": "-, r, a or ra",
    "limit": "a number from 1 to 65536",
    "bytes": "- or a number from 1 to 4294967295",
    "sessions": "a number from 1 to 65536",
    "patterns": "a number from 1 to 1024",
}

# Arguments that must be rejected, separated by single spaces, by the name of the first wrong one. A proof says which arguments are
# accepted, but not which one is named. By "": those that are too few or too many.
REJECTED = {
    "": ["", "2 2 30000 0", "2 2 30000 0 10000 - 2 2", "--bytes 5", "--bytes 5 --sessions 5 --patterns 5 2 2 30000 0 10000 - 2 2"],
    "shards": ["65 2 30000 0 10000", "--bytes x --sessions 0 --patterns 0 0 0 -1 -1 -1 x 0", "--byte 5 2 2 30000 0 10000"],
    "workers": ["2 17 30000 0 10000", "2 0 -1 -1 -1 x 0"],
    "timeout": ["2 2 +5 0 10000", "2 2 -1 -1 -1 x 0"],
    "interval": ["2 2 30000 4294967296 10000", "2 2 30000 -1 -1 x 0"],
    "max_interval": ["2 2 30000 0 ", "2 2 30000 0 -1 x 0"],
    "options": ["2 2 30000 0 10000 ar", "2 2 30000 0 10000 2 -", "2 2 30000 0 10000 x 0"],
    "limit": ["2 2 30000 0 10000 r a", "2 2 30000 0 10000 - 65537", "--bytes x 2 2 30000 0 10000 - 0"],
    "bytes": ["--bytes 0 2 2 30000 0 10000", "--bytes x --sessions 0 --patterns 0 2 2 30000 0 10000 -"],
    "sessions": ["--sessions 65537 2 2 30000 0 10000", "--bytes - --sessions x --patterns 0 2 2 30000 0 10000"],
    "patterns": ["--patterns 1025 2 2 30000 0 10000", "--bytes 5 --sessions 5 --patterns +5 2 2 30000 0 10000"],
}

# First lines of a record that must be rejected: one has a wrong word, one a wrong value, one a word too few, and one too many.
REJECTED_LINES = [
    line
    for right in ["shards=2 timeout=30000 interval=0 max_interval=10000 options=- bytes=- sessions=65536 patterns=1024 limit=1024"]
    for line in (right.replace("shard", "Shard"), right.replace("=2", "=65"), right.partition(" limit")[0], f"{right} x=1")
]


def answered(*pairs):
    """Returns the script and the expected output of requests that are answered in turn: pairs of a body and what is printed."""
    return "".join(f"0 P {body}\n" for body, _ in pairs), "".join(f"{line} {printed}\n" for line, (_, printed) in enumerate(pairs, 1))


def handshakes(*numbers):
    """Returns pairs for `answered`, of handshakes that open the sessions `numbers`."""
    return [("[<handshake>]", f"200 [<opened {it:x}>]") for it in numbers]


def ends():
    """Yields an empty script, and one that does not end with a line end."""
    yield "a script without lines", "", ""
    yield "a last line without its end counts", "0 P []\n0 P []", "1 200 []\n2 200 []\n"


def million_lines():
    """Yields a script of more than a million lines."""
    yield "more than a million lines", "x\n" * 1_100_000, "".join(f"{line} bad\n" for line in range(1, 1_100_001))


def fronts():
    """Yields each proper prefix of a body: the whole request is rejected."""
    body = expand_macros('[{"channel":"/a/b","clientId":"<client 1>","data":1,"data":{"a" : 1.50},"id":"q"}]')
    yield "each front of a body", *answered(*handshakes(1), *((body[:length], "400") for length in range(len(body))), *handshakes(2))


def as_many_patterns():
    """Returns pairs for `answered`, of 16 subscriptions after which session 1 has the greatest number of patterns."""
    lists = [",".join(f'"/{number}/{index}"' for index in range(64)) for number in range(16)]
    members = [f'<meta subscribe 1>,"subscription":[{it}]' for it in lists]
    return [(f"[{{{it}}}]", f'200 [{{{it},"successful":true}}]') for it in members]


def overflows():
    """Yields sessions with one pattern too many, which ends no hold. Afterwards no events ride."""
    script, expected = answered(*handshakes(1), ("[<connect 1>]", "held"), *as_many_patterns(), ("[<subscribe 1 /a>]", "200 [<subscribed 1 /a>]"))
    expected = expected.replace("2 held\n", "")
    for limit in (1_024, 1, 65_536):
        yield (
            "one pattern too many",
            f"{script}29999 T\n30000 T\n30000 P [<poll 1>]\n",
            f"{expected}2 200 [<connected 1>]\n22 200 [<overflowed 1>]\n",
            f".. - {limit}",
        )
    yield "a rider whose patterns are one too many gets nothing, and none behind it does", *answered(
        *handshakes(1, 2),
        *as_many_patterns(),
        ("[<publish 2 /3/0 1>]", "200 [<published /3/0>]"),
        ("[<subscribe 1 /a>]", "200 [<subscribed 1 /a>]"),
        ("[<publish 1 /b 2>]", "200 [<published /b>]"),
        ("[<poll 1>]", "200 [<overflowed 1>]"),
    ), ".. r"


def limits():
    """Yields two sessions for which the greatest number of events waits. One more overflows the one that has fetched none."""
    for limit in (1_025, 65_536):
        counts, polled = [256] * (limit // 256) + [limit % 256], "200 [<list 256 <event /a/b 1>>,<connected 1>]"
        yield f"{limit} events may wait", *answered(
            *handshakes(1, 2),
            ("[<subscribe 1 /a/b>,<subscribe 2 /a/b>]", "200 [<subscribed 1 /a/b>,<subscribed 2 /a/b>]"),
            *((f"[<list {it} <publish 1 /a/b 1>>]", f"200 [<list {it} <published /a/b>>]") for it in counts),
            ("[<poll 1>]", polled),
            ("[<publish 1 /a/b 2>]", "200 [<published /a/b>]"),
            ("[<poll 2>]", "200 [<overflowed 2>]"),
            ("[<poll 1>]", polled),
        ), f".. - {limit}"


def audiences():
    """Yields a publish to which 5,000 sessions are subscribed: the first and the last one get its event."""
    numbers = range(1, 5_001)
    yield f"{len(numbers)} sessions hear a publish", *answered(
        *handshakes(*numbers),
        *((f"[<subscribe {it:x} /a/b>]", f"200 [<subscribed {it:x} /a/b>]") for it in numbers),
        ("[<publish 1 /a/b 7>]", "200 [<published /a/b>]"),
        *((f"[<poll {it:x}>]", f"200 [<event /a/b 7>,<connected {it:x}>]") for it in (numbers[0], numbers[-1])),
    )


def holds():
    """Yields more than ten thousand connects that are held at the same time, each of its own session."""
    count = 10_001
    script = "".join(f"0 P [<handshake>]\n0 P [<connect {number:x}>]\n" for number in range(1, count + 1))
    expected = "".join(f"{2 * number - 1} 200 [<opened {number:x}>]\n" for number in range(1, count + 1))
    expected += "".join(f"{2 * number} held\n" for number in range(1, count + 1))
    yield f"{count} held connects", script, expected


def long_arrays():
    """Yields a publish with the longest allowed body, an array of half a million numbers, and one that is a byte longer."""
    front, end = expand_macros('[{"channel":"/a/b","clientId":"<client 1>","data":['), "]}]"
    room = BODY - len(front) - len(end)
    data = f"<list {room // 2 + 1} 1>" if room % 2 else f"<list {room // 2 - 1} 1>,10"
    yield "an array of half a million numbers", *answered(
        *handshakes(1),
        ("[<subscribe 1 /a/b>]", "200 [<subscribed 1 /a/b>]"),
        (f"{front}{data}{end}", "200 [<published /a/b>]"),
        (f"{front}{data}0{end}", "413"),
        ("[<poll 1>]", f"200 [<event /a/b [{data}]>,<connected 1>]"),
    )


# The functions that make rows. Each yields names, scripts and expected outputs, and arguments if the row has some. The texts may have
# words in angle brackets (words.txt).
MAKERS = (ends, million_lines, fronts, overflows, limits, audiences, holds, long_arrays)
