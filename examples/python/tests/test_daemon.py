"""The client, its command, its wheel, and what the documents say of the protocol, with a real server. BAYEUXD: the path of a bayeuxd."""
from __future__ import annotations

import importlib.util
import json
import os
import pathlib
import re
import select
import signal
import subprocess
import sys
from collections.abc import Callable

import pytest
from base import read
from bayeuxd import Bayeuxd
from daemon import CONNECT, HANDSHAKE, Connection, post

from gadzilk_client import DEFAULT_URL, Client

FOLDER = pathlib.Path(__file__).resolve().parent.parent
FORMER = FOLDER / "bayeux.py"  # the former name of the client


def test_the_command(start: Callable[..., Bayeuxd], tmp_path: pathlib.Path) -> None:
    """It prints events where one may only read, until Ctrl-C ends it and its session. So it does under its former name."""
    record = tmp_path / "record"
    daemon = start("--sessions", "3", "--readers", "127.0.0.1:0", "--record", str(record))
    url = "http://%s:%d/cometd" % daemon.readers
    env = {**os.environ, "BAYEUX_URL": url, "PYTHONPATH": str(FOLDER / "src"), "PYTHONUTF8": "1"}

    def publish(channel: str, *options: str) -> tuple[int, str]:
        words = [sys.executable, "-m", "gadzilk_client", *options, "publish", channel, "1"]
        result = subprocess.run(words, env=env, capture_output=True, text=True, timeout=60, check=False)
        return result.returncode, result.stderr

    words = [FORMER, "--name", "Ben", "listen", "/a"]
    with subprocess.Popen(words, env=env, stdout=subprocess.PIPE, stderr=subprocess.PIPE, text=True) as process, Client(daemon.url) as client:
        assert process.stdout and process.stderr
        while not select.select([process.stdout], [], [], 0.05)[0]:
            client.publish("/a", "is it there?")
        client.publish("/a", {"text": "Grüße \u2713"})
        while (line := process.stdout.readline()) == '/a "is it there?"\n':
            pass
        assert line == '/a {"text": "Grüße ✓"}\n'
        assert publish("/a") == (1, "bayeux: publishing is not allowed here: HTTP status 403\n")
        assert publish("/service/x") == (0, "")
        assert publish("/a", "--url", url.replace("cometd", "x")) == (1, "bayeux: HTTP status 404: Bayeux is at /cometd\n")
        process.send_signal(signal.SIGINT)
        assert (process.wait(20), process.stderr.read()) == (0, "")
    with Connection(daemon.address) as connection:
        assert all(connection.ask([HANDSHAKE])[0]["successful"] for _ in range(3))
    daemon.close()
    assert '"name":"Ben"' in record.read_text(encoding="utf-8")


def blocks(page: str, language: str = "python") -> list[str]:
    """Returns the fenced blocks in this language of a page, whose path is from the top on."""
    return re.findall(rf"^```{language}\n(.*?)^```$", read(page), re.M | re.S)


def test_the_first_messages_of_the_protocol_are_answered_as_the_page_says(start: Callable[..., Bayeuxd]) -> None:
    [text] = blocks("docs/PROTOCOL.md", "text")
    lines = text.replace("\n   ", "").splitlines()
    assert [line[:2] for line in lines] == ["> ", "< "] * 7
    connection, client = Connection(start("--timeout=30s").address), ""
    for sent, wanted in zip(lines[::2], lines[1::2]):
        connection.send(post(sent[2:].replace('"ID"', f'"{client}"').encode()))
        got = connection.response().body.decode()
        client = client or json.loads(got)[0]["clientId"]
        assert got.replace(f'"{client}"', '"ID"') == wanted[2:]


def test_the_program_of_the_tutorial_continues_after_a_restart(start: Callable[..., Bayeuxd], tmp_path: pathlib.Path) -> None:
    [text] = blocks("docs/TUTORIAL.md")
    program = tmp_path / "publish.py"
    program.write_text(text.replace("time.sleep(1)", "time.sleep(0.01)"), encoding="utf-8")
    (tmp_path / "gadzilk_client").symlink_to(FOLDER / "src/gadzilk_client")
    daemon = start()
    env = {**os.environ, "BAYEUX_URL": daemon.url}
    with Client(daemon.url, min_pause=0.01) as reader:
        with subprocess.Popen([sys.executable, "-B", program], env=env, stdout=subprocess.PIPE, stderr=subprocess.PIPE, text=True) as process:
            events = reader.listen("/load/*")
            found = [next(events) for _ in range(2)]
            daemon.kill()
            # It reports the failure, and goes on.
            assert process.stdout and process.stdout.readline()
            start("--listen", "%s:%d" % daemon.address)
            found += [next(events) for _ in range(2)]
            process.terminate()
            assert process.communicate(timeout=20)[1] == ""
    assert all(channel == "/load/here" and isinstance(data, float) for channel, data in found)


@pytest.mark.skipif(not all(map(importlib.util.find_spec, ("pip", "tomllib", "venv"))), reason="this Python has no pip, tomllib or venv")
@pytest.mark.timeout(600)
def test_the_wheel_in_an_empty_environment(start: Callable[..., Bayeuxd], tmp_path: pathlib.Path) -> None:
    daemon, tools = start(), tmp_path / "venv/bin"
    env = {**os.environ, "PYTHONDONTWRITEBYTECODE": "1", "BAYEUX_URL": daemon.url}

    def run(*args: str | pathlib.Path) -> str:
        result = subprocess.run(args, env=env, cwd=tmp_path, capture_output=True, text=True, check=False)
        assert result.returncode == 0, result.stderr
        return result.stdout

    run(sys.executable, "-m", "venv", "--without-pip", tmp_path / "venv")
    pip = [sys.executable, "-m", "pip", "--python", tools / "python"]
    # pip and the script build the same bytes.
    run(*pip, "wheel", "--no-index", "--no-deps", "--wheel-dir", tmp_path / "by-pip", FOLDER)
    name = run(sys.executable, FOLDER / "build_wheel.py", ".").strip()
    assert (tmp_path / name).read_bytes() == (tmp_path / "by-pip" / name).read_bytes()
    run(*pip, "install", "--no-index", name)
    assert run(tools / "bayeux", "--version") == read("VERSION")
    assert any((tmp_path / "venv/lib").glob("*/site-packages/gadzilk_client/py.typed"))
    for [text] in map(blocks, ("docs/CLIENT.md", "examples/python/README.md")):
        assert text.count(DEFAULT_URL) == 1
        connection = Connection(daemon.address)
        session = {"clientId": connection.ask([HANDSHAKE])[0]["clientId"]}
        connection.ask([{"channel": "/meta/subscribe", "subscription": "/chat/hall", **session}])
        args = [tools / "python", "-c", text.replace(DEFAULT_URL, daemon.url)]
        with subprocess.Popen(args, env={**env, "PYTHONUNBUFFERED": "1"}, cwd=tmp_path, stdout=subprocess.PIPE, text=True) as program:
            assert connection.ask([{**CONNECT, **session}])[0]["data"] == {"text": "Hello"}
            # It prints what is published from now on.
            while not select.select([program.stdout], [], [], 0.05)[0]:
                run(tools / "bayeux", "publish", "/chat/x", '"Hi"')
            assert program.stdout and program.stdout.readline() == "/chat/x Hi\n"
            program.kill()
