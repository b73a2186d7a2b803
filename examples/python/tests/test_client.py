"""The client with a server that follows a script."""
from __future__ import annotations

import asyncio
import datetime
import io
import itertools
import logging
import re
from concurrent.futures import ThreadPoolExecutor
from typing import Any

import pytest
from servers import PATIENCE, Script, rejected, unknown

from gadzilk_client import Client, Event, Forbidden, HTTPStatus, InvalidResponse, Rejected, Unreachable
from gadzilk_client.__main__ import main
from gadzilk_client.aio import AsyncClient


def events(*data: Any) -> list[dict[str, Any]]:
    return [{"channel": "/a", "data": it} for it in data]


def take(count: int, client: Client, *patterns: str) -> list[Any]:
    """Returns the data of the next events."""
    listening = client.listen(*patterns or ("/a",))
    try:
        return [next(listening).data for _ in range(count)]
    finally:
        listening.close()  # type: ignore[attr-defined]


class TestRequests:
    def test_each_message_of_a_session(self, script: Script) -> None:
        script.batches = [events(1, 2)]
        with Client(script.url, name="Ben") as client:
            client.publish("/b", {"text": "ü"})
            assert take(2, client, "/a", "/c/*") == [1, 2]
            assert client.client_id == "session 1"
        own = {"clientId": "session 1"}
        assert script.requests == [
            [{"channel": "/meta/handshake", "version": "1.0", "supportedConnectionTypes": ["long-polling"], "ext": {"ack": True, "name": "Ben"}}],
            [{"channel": "/b", "data": {"text": "ü"}, **own}],
            [{"channel": "/meta/subscribe", "subscription": ["/a", "/c/*"], **own}],
            [{"channel": "/meta/connect", "connectionType": "long-polling", "ext": {"ack": 0}, **own}],
            [{"channel": "/meta/disconnect", **own}],
        ]

    def test_connections_are_kept(self, script: Script, client: Client) -> None:
        script.batches = [events(it) for it in range(20)]
        for number in range(20):
            client.publish("/b", number)
        assert take(20, client) == list(range(20))
        assert len(script.connections) == 2

    def test_a_connection_that_the_server_has_closed_is_opened_again(self, script: Script, client: Client) -> None:
        client.publish("/b", 1)
        client._others._connection.sock.shutdown(2)  # type: ignore[union-attr]
        client.publish("/b", 2)
        assert script.data("/b") == [[1], [2]]

    def test_headers_and_ext_are_asked_for_each_time(self, script: Script) -> None:
        tokens, exts = itertools.count(), itertools.count(5)
        with Client(script.url, headers=lambda: {"X-Token": str(next(tokens))}, ext=lambda: {"token": next(exts)}) as client:
            client.publish("/b", 1)
            script.next("/b", unknown("/b"))
            client.publish("/b", 2)
        assert [it["X-Token"] for it in script.heads] == [str(it) for it in range(len(script.heads))]
        assert [it["ext"] for it in script.messages("/meta/handshake")] == [{"ack": True, "token": 5}, {"ack": True, "token": 6}]

    def test_user_and_password_of_the_address(self, script: Script) -> None:
        with Client(script.url.replace("//", "//Aladdin:open%20sesame@")) as client:
            client.publish("/b", 1)
        assert {it["Authorization"] for it in script.heads} == {"Basic QWxhZGRpbjpvcGVuIHNlc2FtZQ=="}

    @pytest.mark.parametrize("url", ["", "/cometd", "ftp://127.0.0.1/", "http://"])
    def test_a_wrong_address(self, url: str) -> None:
        with pytest.raises(ValueError, match="url"):
            Client(url)


class TestPublish:
    @pytest.mark.parametrize(
        ("answer", "kind", "may_have_arrived"),
        [
            *((it, HTTPStatus, False) for it in (400, 401, 404, 413, 429, 501)),
            *((it, HTTPStatus, True) for it in (502, 503, 504)),
            (403, Forbidden, False),
            *((it, InvalidResponse, True) for it in (b"<html>", b"{}", b"[]", b"[1]", b'[{"channel":"/b"}]')),
            *((it, Unreachable, True) for it in (None, ...)),
        ],
    )
    def test_a_failure_is_not_tried_again(self, script: Script, client: Client, answer: Any, kind: type, may_have_arrived: bool) -> None:
        client.publish("/b", 0)
        script.next("/b", answer)
        with pytest.raises(OSError) as caught:
            client.publish("/b", 1)
        assert (type(caught.value), caught.value.may_have_arrived) == (kind, may_have_arrived)  # type: ignore[attr-defined]
        assert getattr(caught.value, "status", answer) == answer
        assert script.data("/b") == [[0], [1]]

    def test_no_server_and_no_answer(self, script: Script) -> None:
        with pytest.raises(Unreachable) as caught:
            Client("http://127.0.0.1:1/cometd").publish("/b", 1)
        assert not caught.value.may_have_arrived
        with Client(script.url, timeout=0.2) as client:
            client.publish("/b", 0)
            done = script.hold("/b")
            with pytest.raises(Unreachable, match="no answer in time") as caught:
                client.publish("/b", 1)
            done.set()
        assert caught.value.may_have_arrived

    def test_a_rejected_publish_and_a_lost_session(self, script: Script, client: Client) -> None:
        script.next("/b", rejected("/b", "400::Invalid channel"))
        with pytest.raises(Rejected, match="400::Invalid channel") as caught:
            client.publish("/b", 1)
        assert (caught.value.number, script.sessions) == (400, 1)
        script.next("/b", *[unknown("/b")] * 2)
        assert client.publish_all([("/b", 2), ("/b", 3)]) == [None, None]
        assert (script.data("/b"), script.sessions) == ([[1], [2, 3], [2, 3]], 2)
        script.next("/b", *[unknown("/b")] * 2)
        with pytest.raises(Rejected, match="402"):
            client.publish("/b", 4)
        script.next("/meta/handshake", rejected("/meta/handshake", "503::Too many sessions", reconnect="handshake"))
        with pytest.raises(Rejected, match="503::Too many sessions"):
            client.publish("/b", 5)

    def test_many_in_few_requests(self, script: Script, client: Client) -> None:
        script.next("/b", rejected("/b", "400::Missing data"))
        outcomes = client.publish_all(("/b", it) for it in range(80))
        assert (outcomes[0].number, outcomes[1:]) == (400, [None] * 79)  # type: ignore[union-attr]
        assert script.data("/b") == [list(range(32)), list(range(32, 64)), list(range(64, 80))]
        client.publish_all(("/long", "ü" * 10_000) for _ in range(10))
        assert [len(it) for it in script.data("/long")] == [2] * 5

    def test_one_by_one_if_the_request_is_refused_because_of_one(self, script: Script, client: Client) -> None:
        script.next("/b", 403)
        script.next("/forbidden", 403)
        outcomes = client.publish_all([("/b", 1), ("/forbidden", 2), ("/b", 3)])
        assert [type(it) for it in outcomes] == [type(None), Forbidden, type(None)]

    def test_threads(self, script: Script, client: Client) -> None:
        with ThreadPoolExecutor(8) as pool:
            list(pool.map(lambda number: [client.publish("/b", (number, it)) for it in range(50)], range(8)))
        found = [data for [data] in script.data("/b")]
        assert len(found) == 400
        assert all([it for it in found if it[0] == number] == [[number, it] for it in range(50)] for number in range(8))
        assert script.sessions == 1

    @pytest.mark.parametrize("data", [float("nan"), {1, 2}, b"x"])
    def test_what_json_cannot_express(self, script: Script, client: Client, data: Any) -> None:
        with pytest.raises((ValueError, TypeError)):
            client.publish("/b", data)
        assert not script.requests


class TestListen:
    def test_each_event_once_and_acknowledged(self, script: Script, client: Client) -> None:
        script.batches = [events(1), [], events(2, 3), events(4)]
        listening = client.listen("/a")
        assert next(listening) == Event("/a", 1) == ("/a", 1)
        # The server sends the events of a response that is lost, or breaks off, again.
        script.next("/meta/connect", None, ...)
        assert [next(listening).data for _ in range(3)] == [2, 3, 4]
        assert [it["ext"]["ack"] for it in script.messages("/meta/connect")] == [0, 1, 1, 1, 1, 2]

    @pytest.mark.parametrize("answer", [None, ..., 500, 503, 404, b"<html>", rejected("", "503::Too many sessions", reconnect="handshake")])
    @pytest.mark.parametrize("channel", ["/meta/handshake", "/meta/subscribe", "/meta/connect"])
    def test_it_tries_again(self, script: Script, client: Client, caplog: pytest.LogCaptureFixture, channel: str, answer: Any) -> None:
        script.batches = [events(1)]
        script.next(channel, answer)
        with caplog.at_level(logging.WARNING, "gadzilk_client"):
            assert take(1, client) == [1]
        assert [it.name for it in caplog.records] == ["gadzilk_client"]
        assert "trying again" in caplog.text

    def test_a_lost_session_is_a_gap(self, script: Script) -> None:
        gaps: list[datetime.datetime] = []
        begin = datetime.datetime.now(datetime.timezone.utc)
        with Client(script.url, min_pause=0.001, on_gap=gaps.append) as client:
            script.batches = [events(1)]
            listening = client.listen("/a")
            assert next(listening).data == 1
            assert not gaps
            script.next("/meta/connect", unknown("/meta/connect"))
            script.batches = [events(2)]
            assert next(listening).data == 2
        [gap] = gaps
        assert begin <= gap <= datetime.datetime.now(datetime.timezone.utc)
        assert [it["clientId"] for it in script.messages("/meta/subscribe")] == ["session 1", "session 2"]
        assert script.messages("/meta/connect")[-1]["ext"] == {"ack": 0}

    @pytest.mark.parametrize("channel", ["/meta/handshake", "/meta/connect"])
    def test_the_advice_not_to_try_again(self, script: Script, client: Client, channel: str) -> None:
        script.next(channel, rejected(channel, "400::Unsupported version", reconnect="none"))
        with pytest.raises(Rejected, match="400::Unsupported version"):
            take(1, client)

    def test_a_rejected_pattern(self, script: Script, client: Client) -> None:
        script.next("/meta/subscribe", rejected("/meta/subscribe", "400::Invalid pattern"))
        with pytest.raises(Rejected, match="/a/[*][*]/b: 400::Invalid pattern") as caught:
            take(1, client, "/a/**/b")
        assert caught.value.number == 400

    def test_many_patterns(self, script: Script, client: Client) -> None:
        script.batches = [events(1)]
        take(1, client, *(f"/{it}" for it in range(150)))
        assert [len(it["subscription"]) for it in script.messages("/meta/subscribe")] == [64, 64, 22]

    def test_patience_ends(self, script: Script) -> None:
        script.next("/meta/handshake", *[rejected("/meta/handshake", "503::Too many sessions", reconnect="handshake")] * 1000)
        with Client(script.url, min_pause=0.001, max_pause=0.01, patience=0.1) as client, pytest.raises(Rejected, match="503"):
            take(1, client)

    def test_pauses(self, script: Script, client: Client, monkeypatch: pytest.MonkeyPatch) -> None:
        client.min_pause, client.max_pause = 0.25, 10.0
        pauses: list[float] = []
        monkeypatch.setattr(client._closed, "wait", lambda seconds: pauses.append(seconds))
        script.next("/meta/handshake", *[503] * 9)
        script.batches = [events(1)]
        script.advice["interval"] = 2000
        assert take(1, client) == [1]
        limits = [min(10.0, 0.25 * 2**it) for it in range(9)]
        assert all(limit / 2 <= it <= limit for it, limit in zip(pauses, limits))
        # A random length, so that not all clients return at once.
        assert len({it / limit for it, limit in zip(pauses, limits)}) > 1
        # After a connect that succeeds, the pauses begin anew, and the advised interval applies.
        pauses.clear()
        script.batches = [events(2), events(3)]
        script.next("/meta/connect", 503, 503)
        listening = client.listen("/a")
        assert next(listening).data == 2
        script.next("/meta/connect", 503)
        assert next(listening).data == 3
        first, second, interval, again = pauses
        assert (first <= 0.25, second <= 0.5, interval, again <= 0.25) == (True, True, 2.0, True)
        # A session that is lost shows that the server can be reached.
        pauses.clear()
        script.batches = [events(4)]
        script.next("/meta/connect", 503, 503, 503, unknown("/meta/connect"))
        assert next(listening).data == 4
        assert (pauses[0], pauses[4] <= 0.25) == (2.0, True)

    def test_the_hold_adds_to_the_timeout(self, script: Script, client: Client, monkeypatch: pytest.MonkeyPatch) -> None:
        script.advice["timeout"] = 30_000
        script.batches = [events(1)]
        found: list[float] = []
        post = client._connects.post
        monkeypatch.setattr(client._connects, "post", lambda body, headers, timeout: found.append(timeout) or post(body, headers, timeout))
        take(1, client)
        assert found == [PATIENCE, PATIENCE + 30]

    def test_close_from_another_thread_ends_it(self, script: Script, client: Client) -> None:
        hold = script.hold("/meta/connect")
        with ThreadPoolExecutor() as pool:
            listening = pool.submit(list, client.listen("/a"))
            script.wait("/meta/connect")
            client.close()
            assert listening.result(PATIENCE / 2) == []
            hold.set()

    def test_a_publish_that_finds_the_session_gone_ends_the_connect(self, script: Script) -> None:
        hold, gaps = script.hold("/meta/connect"), []  # type: ignore[var-annotated]
        with ThreadPoolExecutor() as pool, Client(script.url, timeout=PATIENCE, min_pause=0.001, on_gap=gaps.append) as client:
            event = pool.submit(next, client.listen("/a"))
            script.wait("/meta/connect")
            script.next("/b", unknown("/b"))
            script.batches = [events(1)]
            client.publish("/b", 0)
            assert event.result(PATIENCE / 2).data == 1
            hold.set()
        assert len(gaps) == 1

    def test_only_one_at_a_time(self, script: Script, client: Client) -> None:
        script.batches = [events(1)]
        listening = client.listen("/a")
        next(listening)
        with pytest.raises(RuntimeError):
            next(client.listen("/a"))
        with pytest.raises(ValueError):
            next(client.listen())


class TestClose:
    @pytest.mark.parametrize("answer", [None, 500, b"", unknown("/meta/disconnect")])
    def test_it_raises_nothing(self, script: Script, answer: Any) -> None:
        client = Client(script.url)
        client.publish("/b", 1)
        script.next("/meta/disconnect", answer)
        client.close()
        assert client.client_id is None


def test_asyncio(script: Script) -> None:
    async def run() -> list[Any]:
        async with AsyncClient(script.url) as client:
            await client.publish("/b", 1)
            assert await client.publish_all([("/b", 2)]) == [None]
            script.batches = [events(1, 2)]
            found = []
            async for event in client.listen("/a"):
                found.append(event.data)
                if len(found) == 2:
                    return found
        raise AssertionError

    assert asyncio.run(run()) == [1, 2]


def test_the_address_of_the_environment(monkeypatch: pytest.MonkeyPatch, script: Script) -> None:
    monkeypatch.setenv("BAYEUX_URL", script.url)
    with Client() as client:
        client.publish("/b", 1)
    assert script.data("/b") == [[1]]


class TestCommand:
    """The command `bayeux`."""

    def test_events_and_standard_input(self, script: Script, capsys: pytest.CaptureFixture[str], monkeypatch: pytest.MonkeyPatch) -> None:
        script.batches = [events(1), events({"text": "ü"}, 3)]
        assert main(["--url", script.url, "--header", "X-Token: abc", "subscribe", "--count", "2", "/a"]) == 0
        assert capsys.readouterr() == ('/a 1\n/a {"text": "ü"}\n', "")
        assert {it["X-Token"] for it in script.heads} == {"abc"}
        monkeypatch.setattr("sys.stdin", io.StringIO('1\n{"text": "ü"}\n'))
        assert main(["--url", script.url, "publish", "/b", "-"]) == 0
        assert script.data("/b") == [[1], [{"text": "ü"}]]
        script.batches = [events(4, 5)]
        script.next("/meta/connect", {**script.reply({"channel": "/meta/connect"})[-1], "advice": {"reconnect": "none"}})
        assert main(["--url", script.url, "watch", "/a"]) == 1
        assert capsys.readouterr().err == "bayeux: the session was ended\n"

    def test_errors(self, script: Script, capsys: pytest.CaptureFixture[str]) -> None:
        def run(*args: str, url: str = script.url) -> tuple[int, str]:
            return main(["--url", url, *args]), capsys.readouterr().err

        script.next("/meta/subscribe", rejected("/meta/subscribe", "400::Invalid pattern"))
        assert run("subscribe", "/a/*/b") == (1, "bayeux: /a/*/b: 400::Invalid pattern\n")
        for text, quoted in (("Hello", """'"Hello"'"""), ("", """'""'"""), ("NaN", """'"NaN"'"""), ('{"n":}', r"""'"{\"n\":}"'""")):
            assert run("publish", "/a", text) == (1, f"bayeux: expected JSON, got {text}; to publish it as text, write {quoted}\n")
        nobody = "http://127.0.0.1:1/cometd"
        status, text = run("publish", "/a", "1", url=nobody)
        assert (status, bool(re.fullmatch(f"bayeux: {nobody}: .*refused.*; set BAYEUX_URL to use another server\n", text))) == (1, True)
        for args in ((), ("listen",), ("publish", "/a"), ("--unknown", "/a"), ("--header", "x", "watch", "/a")):
            with pytest.raises(SystemExit, match="2"):
                run(*args)
            assert "usage: " in capsys.readouterr().err
