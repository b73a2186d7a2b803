"""Caddy and HAProxy with the configurations of docs/RECIPES.md serve sessions of clients, and reject what they must."""
import concurrent.futures
import contextlib
import os
import re
import subprocess
from collections.abc import Iterator
from pathlib import Path

import pytest
from base import end, reserved_port, section, wait_until
from bayeuxd import Bayeuxd
from nginx import Nginx

CONNECT = {"channel": "/meta/connect", "connectionType": "long-polling"}
# Options of Caddy for tests: its own certificate, which the system need not trust, and no other ports.
CADDY = "{\n admin off\n skip_install_trust\n auto_https disable_redirects\n}\n"
RUNS = {"caddy": ["caddy", "run", "--adapter", "caddyfile", "--config"], "haproxy": ["haproxy", "-db", "-f"]}


def has_answered(proxy: Nginx) -> bool:
    """Returns whether the proxy answers. Caddy listens before it has its certificate."""
    with contextlib.suppress(OSError):
        return proxy.status() == 200
    return False


def configuration(program: str, folder: Path, port: int, server: str) -> str:
    """Returns that of the page, for localhost at `port`, with the server in place of 127.0.0.1:8087."""
    [text] = re.findall(rf"^```{program}\n(.*?)^```$", section("docs/RECIPES.md", "With Caddy or HAProxy"), re.M | re.S)
    own = {"caddy": {"chat.example.org": f"localhost:{port}"}, "haproxy": {"chat.example.org": "localhost", "/etc/haproxy": str(folder)}}
    own["haproxy"]["bind :443"] = f"bind 127.0.0.1:{port}"
    for old, new in {"127.0.0.1:8087": server, **own[program]}.items():
        assert old in text, old
        text = text.replace(old, new)
    return CADDY + text if program == "caddy" else text


@pytest.fixture(params=RUNS)
def front(request, need, server, tmp_path: Path) -> Iterator[tuple[Nginx, Bayeuxd]]:
    """A running proxy, and the daemon that it is in front of."""
    need(request.param, "openssl")
    found, file = server("--no-callback-polling"), tmp_path / "configuration"
    how = ["-nodes", "-days", "1", "-subj", "/CN=localhost", "-keyout", "chat.pem.key", "-out", "chat.pem"]
    subprocess.run(["openssl", "req", "-x509", "-newkey", "rsa:2048", *how], check=True, cwd=tmp_path, stderr=subprocess.DEVNULL)
    with reserved_port() as port, (tmp_path / "log").open("w") as log:
        file.write_text(configuration(request.param, tmp_path, port, "%s:%d" % found.address), encoding="ascii")
        env = {**os.environ, "HOME": str(tmp_path), "XDG_DATA_HOME": str(tmp_path), "XDG_CONFIG_HOME": str(tmp_path)}
        proxy, process = Nginx(f"https://localhost:{port}"), subprocess.Popen([*RUNS[request.param], file], env=env, stdout=log, stderr=log)
        try:
            wait_until("the proxy answers", lambda: has_answered(proxy) or process.poll() is not None)
            assert process.poll() is None, (tmp_path / "log").read_text(encoding="utf-8")
            yield proxy, found
        finally:
            end(process)


def test_held_connect_gets_an_event_and_others_are_rejected(front: tuple[Nginx, Bayeuxd]) -> None:
    proxy, found = front
    ben, ann = proxy.handshake(), proxy.handshake()
    proxy.send(channel="/meta/subscribe", subscription="/a/*", clientId=ben)
    with concurrent.futures.ThreadPoolExecutor() as pool:
        connecting = pool.submit(proxy.send, **CONNECT, clientId=ben)
        wait_until("the connect is held", lambda: found.scrape()["bayeux_connects_held", ""] == 1 or connecting.done())
        proxy.send(channel="/a/b", data="Hello", clientId=ann)
        assert connecting.result()[0] == {"channel": "/a/b", "data": "Hello"}
    assert proxy.status("/cometd?jsonp=a&message=[]", "GET") == 403
    assert proxy.ask(Host="other.example").text != "[]"
    proxy.expect_kept_connection(found)
