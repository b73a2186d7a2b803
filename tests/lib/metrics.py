"""The page of metrics of a daemon (`--metrics`)."""
import json
import re
import time

from daemon import TIMEOUT_SECONDS, Connection, get

# Metrics, by name and labels.
TICKED, REFUSED_TICKS, UPTIME = ("bayeux_ticks_total", ""), ("bayeux_ticks_refused_total", ""), ("bayeux_uptime_seconds_total", "")
OPEN, OPENED, SESSIONS = ("bayeux_connections", ""), ("bayeux_connections_total", ""), ("bayeux_sessions", "")
REQUESTS_HELD, CONNECTS_HELD = ("bayeux_requests_held", ""), ("bayeux_connects_held", "")
FILED, SWEPT = ("bayeux_answers_filed", ""), ("bayeux_answers_swept_total", "")
SERVED = ("bayeux_responses_total", '{status="200"}')
# A value of a page, with its name and labels.
SAMPLE = re.compile(r"([a-z_]+)(|\{[^}]*\}) ([0-9]+(?:\.[0-9]+)?)")


def ask_for(address, request):
    """Sends `request` to the metrics listener at `address`, which sends a response and ends the connection. Returns the response."""
    with Connection(address) as connection:
        connection.send(request)
        responses = connection.read_to_end()
        assert not connection.was_reset and len(responses) == 1, f"{request[:80]!r}, of {len(request)} bytes"
    return responses[0]


def read_page(text):
    """Returns the values of a page of metrics, by name and labels. Whether its form is right otherwise, promtool checks in test_metrics.py."""
    lines = [it for it in text.splitlines() if not it.startswith("# ")]
    samples = [SAMPLE.fullmatch(it) for it in lines]
    assert all(samples), [line for line, it in zip(lines, samples) if not it]
    values = {it.group(1, 2): json.loads(it[3]) for it in samples}
    assert len(values) == len(samples), "a value occurs twice"
    return values


def scrape(address):
    """Returns the values of the page of metrics at `address`, by name and labels."""
    response = ask_for(address, get(b"", b"/metrics"))
    assert (response.status, response.fields[b"content-type"]) == (200, b"text/plain; version=0.0.4; charset=utf-8")
    return read_page(response.body.decode())


def read_list(address, path):
    """Returns the items of the list at `path` of the metrics listener at `address`."""
    response = ask_for(address, get(b"", path))
    assert (response.status, response.fields[b"content-type"]) == (200, b"text/plain; charset=utf-8")
    assert response.body[-1:] in (b"", b"\n")
    return [json.loads(line) for line in response.body.splitlines()]


def expect_values(address, expected, pause=lambda: time.sleep(0.02)):
    """Waits until the metrics have the values `expected`, and returns all values. `pause`: as for `wait_for_metrics`."""

    def fault_of(values):
        return ", ".join(f"{''.join(name)} is {values[name]}, not {value}" for name, value in expected.items() if values[name] != value)

    return wait_for_metrics(address, fault_of, pause)


def wait_for_metrics(address, fault_of, pause=lambda: time.sleep(0.02)):
    """Waits until the metrics are right, and returns all values.

    `fault_of`: returns what is wrong with them, or "". `pause`: is called between two looks, such as the `tick` of a `Clock`.
    """
    end, wrong = time.monotonic() + TIMEOUT_SECONDS, ""
    while True:
        try:
            values = scrape(address)
        except (AssertionError, OSError) as error:
            raise AssertionError(f"{wrong}, and then {error}" if wrong else f"{error}") from error
        wrong = fault_of(values)
        if not wrong:
            return values
        assert time.monotonic() <= end, wrong
        pause()
