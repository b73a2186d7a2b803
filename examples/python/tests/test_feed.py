"""The feed of examples/dashboard."""
from __future__ import annotations

import io
import json
import os
import pathlib
import signal
import subprocess
import time
from collections.abc import Callable
from typing import Any

import pytest
from base import load_script
from bayeuxd import Bayeuxd
from servers import Script, rejected, unknown

FEED = pathlib.Path(__file__).resolve().parents[2] / "dashboard/feed"
LINE = "feed: publishes to {} at {}, each 0.01 s; Ctrl-C ends it\n".format
METRICS = """# HELP bayeux_sessions Sessions that are open.
# TYPE bayeux_sessions gauge
bayeux_sessions 3
# HELP bayeux_replies_total Successful replies, by "kind".
bayeux_replies_total{kind="publish",other="a b"} 12.5
"""


def run(script: Script, *args: str, until: Callable[[], object] = lambda: False, end: int = signal.SIGTERM) -> tuple[int, str, str]:
    """Runs the feed until it ends, or `until()` is true. Returns its status, output and errors."""
    env = {**os.environ, "BAYEUX_URL": script.url, "BAYEUX_PAUSE": "0.01"}
    with subprocess.Popen([FEED, *args], env=env, stdout=subprocess.PIPE, stderr=subprocess.PIPE, text=True) as process:
        while not until() and process.poll() is None:
            time.sleep(0.005)
        process.send_signal(end)
        output, errors = process.communicate(timeout=20)
        return process.returncode, output, errors


@pytest.fixture(scope="module")
def feed() -> Any:
    """The feed as a module."""
    return load_script(FEED)


def test_numbers_of_a_command(script: Script) -> None:
    status, output, errors = run(script, "a_b-1", "echo", "5.50", until=lambda: len(script.data("/dashboard/a_b-1")) >= 3, end=signal.SIGINT)
    assert (status, output, errors) == (130, LINE("/dashboard/a_b-1", script.url), "")
    assert script.data("/dashboard/a_b-1")[:3] == [[5.5]] * 3
    assert script.sessions == 1
    assert script.requests[-1] == [{"channel": "/meta/disconnect", "clientId": "session 1"}]


def test_the_default_is_the_use_of_processors(script: Script) -> None:
    channel = "/dashboard/CPU-percent"
    assert run(script, until=lambda: script.data(channel))[0] == 143
    assert all(0 <= it <= 100 for [it] in script.data(channel))


def test_failures_are_reported_once(script: Script) -> None:
    done = {"channel": "/dashboard/x", "successful": True}
    # In a lost session, the client publishes again.
    refused = rejected("/dashboard/x", "400::Invalid channel")
    script.next("/dashboard/x", done, 502, None, unknown("/dashboard/x"), done, refused, 503, done)
    status, output, errors = run(script, "x", "echo", "1", until=lambda: len(script.data("/dashboard/x")) >= 9)
    assert (status, output, script.sessions) == (143, 3 * LINE("/dashboard/x", script.url), 2)
    whys = ("HTTP status 502", "400::Invalid channel")
    assert errors == "".join(f"feed: not published at {script.url}, trying again: {it}; set BAYEUX_URL to use another server\n" for it in whys)


def test_where_publishing_is_not_allowed_it_ends(script: Script) -> None:
    script.next("/dashboard/x", 403)
    status, _, errors = run(script, "x", "echo", "1", until=lambda: len(script.data("/dashboard/x")) > 1)
    assert (status, errors) == (1, f"feed: publishing is not allowed at {script.url}; set BAYEUX_URL to use another address\n")
    assert script.requests[-1][0]["channel"] == "/meta/disconnect"


def test_the_metrics_of_a_server(script: Script, start: Callable[..., Bayeuxd]) -> None:
    run(script, "--metrics", "%s:%d" % start().metrics, until=lambda: script.data("/metrics/all"))
    found = script.data("/metrics/all")[0][0]
    assert found["metrics"]["bayeux_sessions"] == 0 and "bayeux_sessions" in found["help"]


@pytest.mark.parametrize("args", [["name"], ["--metrics", "a", "b"], ["", "echo"], ["a/b", "echo"], ["-x", "echo"], ["a.b", "echo"], ["a\n", "echo"]])
def test_wrong_arguments(feed: Any, capsys: pytest.CaptureFixture[str], args: list[str]) -> None:
    assert feed.main(args) == 2
    assert "usage: " in capsys.readouterr().err


def test_which_texts_are_numbers(feed: Any) -> None:
    for text in ("0", "5", "-5", "0.5", "-0.25", "1795793822", "10.05", "-10", "5\n"):
        assert feed.number_of(["printf", "%s", text]) == json.loads(text)
    for text in ("", "abc", "007", '1,"x":2', "5 6", "-", ".5", "5.", "+5", "1.2.3", "5\n6", "0x5", '{"a":1}', "NaN", "1e5"):
        with pytest.raises(ValueError, match="no number: "):
            feed.number_of(["printf", "%s", text])
    assert feed.number_of(["sh", "-c", "echo 0; exit 1"]) == 0


def test_the_use_of_processors(feed: Any, tmp_path: pathlib.Path) -> None:
    times = tmp_path / "stat"
    use = feed.processor_use(times)
    found = []
    for row in (
        "1000 1000 1000 1000 1000 1000 1000 1000 7 7", "1010 1005 1003 1050 1020 1004 1002 1006 50 70",
        "1010 1005 1003 1100 1070 1004 1002 1006 500 700", "1110 1005 1003 1100 1070 1004 1002 1006 5000 7000",
    ):
        times.write_text(f"cpu  {row}\ncpu0 1\n")
        found.append(next(use))
    assert found == [75.0, 30.0, 0.0, 100.0]


def test_metrics(feed: Any, monkeypatch: pytest.MonkeyPatch) -> None:
    answers = [METRICS, ""]
    monkeypatch.setattr(feed.urllib.request, "urlopen", lambda *_, **__: io.BytesIO(answers.pop(0).encode()))
    assert feed.metrics_of("a:1") == {
        "metrics": {"bayeux_sessions": 3, 'bayeux_replies_total{kind="publish",other="a b"}': 12.5},
        "help": {"bayeux_sessions": "Sessions that are open.", "bayeux_replies_total": 'Successful replies, by "kind".'},
    }
    with pytest.raises(ValueError, match="no metrics at a:1; start bayeuxd with --metrics a:1"):
        feed.metrics_of("a:1")
    monkeypatch.undo()
    with pytest.raises(ValueError, match="no metrics at 127.0.0.1:1: .*refused"):
        feed.metrics_of("127.0.0.1:1")
