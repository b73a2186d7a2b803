"""The recipes of the pages, with their own text, on loopback. Blocks in languages that are not installed are left out."""
import concurrent.futures
import json
import re
import subprocess
import urllib.parse
from pathlib import Path

import pytest
from base import section, wait_until
from metrics import CONNECTS_HELD
from nginx import Nginx, adapt

from gadzilk_client import Client

# The page of each recipe that is on another page than RECIPES.
PAGES = {"Upgrade": "docs/OPERATING.md", "Several machines": "docs/OPERATING.md"}
FOR_ALL = "For all who reach it"
# The header fields of a user with the right password, and of one with a wrong one.
RIGHT, WRONG = {"Authorization": "Basic YW5uOnNlY3JldA=="}, {"Authorization": "Basic YW5uOndyb25n"}
# The command that runs a block of each language of the page.
RUNS = {
    **{"sh": ["bash", "-ec"], "python": ["python3", "-c"], "php": ["php", "-r"], "ruby": ["ruby", "-e"], "js": ["node", "-e"]},
    **{"go": ["go", "run"], "java": ["java"]},
}
# The languages whose programs run only from a file.
FROM_FILES = {"go", "java"}
CONNECT = {"channel": "/meta/connect", "connectionType": "long-polling"}


def block(title: str, language: str = "nginx", at: int = 0) -> str:
    """Returns the text of the fenced block number `at` in this language, counted from 0, in the section `title`."""
    return re.findall(rf"^```{language}\n(.*?)^```$", section(PAGES.get(title, "docs/RECIPES.md"), title), re.M | re.S)[at]


def text_of(address: tuple[str, int]) -> str:
    return "%s:%d" % address


def status_of(address: tuple[str, int], message: dict, by_script: bool = False) -> int:
    """Sends a message to a server's address by POST, or with `by_script` by the GET of callback-polling. Returns the status."""
    query, origin = urllib.parse.urlencode({"jsonp": "a", "message": json.dumps([message])}), Nginx(f"http://{text_of(address)}")
    return origin.status(f"/cometd?{query}", "GET") if by_script else origin.status(body=json.dumps([message]))


@pytest.fixture
def folder(tmp_path: Path) -> Path:
    """The folder of nginx's files, for files of the test. nginx can read it."""
    tmp_path.chmod(0o755)
    for it in ("bayeux", "conf.d"):
        (tmp_path / "nginx/etc/nginx" / it).mkdir(parents=True)
    return tmp_path / "nginx"


def test_users_need_their_password(server, recipe, need, folder: Path) -> None:
    need("openssl")
    title = "Users with passwords"
    command = adapt(block(title, "sh"), folder, {"passwd -6": "passwd -6 -stdin"})
    subprocess.run(["bash", "-ec", command], input="secret\n", text=True, check=True)
    nginx = recipe(block(FOR_ALL) + block(title), server(), folder=folder)
    for args in ([], ["/index.html", "GET"]):
        assert [nginx.status(*args, **headers) for headers in ({}, WRONG, RIGHT)] == [401, 401, 200]


def test_visitors_read_and_members_publish(server, recipe, need, folder: Path) -> None:
    """Directly at the listener for readers, a GET from a script gets the same answers as a POST."""
    need("openssl")
    title = "Who may publish"
    flags = re.search(r"^    bayeuxd --listen 127\.0\.0\.1:8087 --readers (\S+) ", section("docs/RECIPES.md", title), re.M)
    assert flags
    found = server("--readers", "127.0.0.1:0", "--anonymous")
    text = adapt(block(title), folder, {flags[1]: text_of(found.readers)})
    (folder / "etc/nginx/conf.d/readers.conf").write_text(text, encoding="utf-8")
    users = subprocess.run(["openssl", "passwd", "-6", "secret"], capture_output=True, text=True, check=True).stdout
    (folder / "etc/nginx/bayeux/users").write_text(f"ann:{users}", encoding="ascii")
    nginx = recipe(block(title, at=1), found, folder=folder)
    ben = nginx.handshake()
    subscribe = {"channel": "/meta/subscribe", "subscription": "/news/*", "clientId": ben}
    publish = {"channel": "/news/today", "data": "Ben", "clientId": ben}
    for messages in ([publish], [subscribe, publish], [{"channel": "/news/today", "data": 0}]):
        response = nginx.ask(body=json.dumps(messages))
        assert (response.status, response.text) == (403, "")
    assert nginx.send(channel="/service/a", data=1, clientId=ben)[0]["successful"] is True
    nginx.send(**subscribe)
    assert status_of(found.address, {"channel": "/news/today", "data": "backend"}) == 200
    assert [nginx.status(it) for it in ("/cometd/members", "/cometd/members/handshake")] == [401, 401]
    assert nginx.status("/cometd/", body=json.dumps([publish])) == 403
    assert nginx.status("/cometd/members", body=json.dumps([{**publish, "data": "member"}]), **RIGHT) == 200
    assert [it["data"] for it in nginx.send(**CONNECT, clientId=ben)[:-1]] == ["backend", "member"]
    assert [status_of(found.readers, publish, by_script) for by_script in (False, True)] == [403, 403]
    assert status_of(found.readers, {**CONNECT, "clientId": ben, "advice": {"timeout": 0}}, by_script=True) == 200
    nginx.expect_kept_connection(found)
    nginx.expect_kept_connection(found, "/cometd/members", **RIGHT)


def test_users_of_an_application_are_served_while_they_are_signed_in(server, recipe) -> None:
    """A file for each cookie or token stands for a user who is signed in."""
    application = recipe('location = /who { if (!-f "$document_root/$http_cookie$http_authorization") { return 401; } return 204; }')
    signed_in = [application.folder / "var/www" / it for it in ("session=right", "Bearer right")]
    for it in signed_in:
        it.touch()
    nginx = recipe(block("Users of your application"), server(), {"127.0.0.1:8000": text_of(application.place)})
    for args in ([], ["/members/index.html", "GET"]):
        fields: list[dict] = [{}, {"Cookie": "session=wrong"}, {"Cookie": "session=right"}, {"Authorization": "Bearer right"}]
        assert [nginx.status(*args, **it) for it in fields] == [401, 401, 200, 200]
    assert nginx.status("/index.html", "GET") == 200
    assert nginx.status("/signed-in", "GET", Cookie="session=right") == 404
    signed_in[0].unlink()
    assert nginx.status(Cookie="session=right") == 401


@pytest.mark.parametrize("language", RUNS)
def test_backend_publishes(language: str, server, recipe, need, tmp_path: Path) -> None:
    need("curl", RUNS[language][0])
    title = "Publish from a backend"
    found = server("--anonymous")
    nginx = recipe(block(FOR_ALL), found)
    ben = nginx.handshake()
    nginx.send(channel="/meta/subscribe", subscription="/news/*", clientId=ben)
    program = adapt(block(title, language).removeprefix("<?php\n"), tmp_path, {"127.0.0.1:8087": text_of(found.address)})
    if language in FROM_FILES:
        path = tmp_path / f"publish.{language}"
        path.write_text(program, encoding="utf-8")
        program = str(path)
    result = subprocess.run([*RUNS[language], program], capture_output=True, text=True, check=False)
    assert result.stdout.strip() == block(title, "text").strip(), result.stderr
    assert nginx.send(**CONNECT, clientId=ben)[:-1] == [{"channel": "/news/today", "data": "Hello"}]


def test_curl_lines_of_the_readme_get_an_event(server, need) -> None:
    need("curl")
    found = server("--anonymous")
    text = section("README.md", "Talk to it with curl").replace("127.0.0.1:8087", text_of(found.address))
    waits, publishes = re.findall(r"(?:^    .*\n)+", text, re.M)
    with subprocess.Popen(["bash", "-ec", waits], stdout=subprocess.PIPE, text=True) as shell:
        assert shell.stdout and '"successful":true' in shell.stdout.readline()
        found.expect({CONNECTS_HELD: 1})
        printed = subprocess.run(["bash", "-ec", publishes], capture_output=True, text=True, check=True).stdout
        assert printed == '[{"channel":"/a","successful":true}]'
        assert [it.get("data") for it in json.loads(shell.stdout.readline())] == ["Hello", None]


def test_upgrade_changes_the_server_while_a_client_listens(daemon, recipe, caplog) -> None:
    first, second = daemon("--timeout=2s", "--anonymous"), daemon("--timeout=2s", "--anonymous")
    nginx = recipe(block(FOR_ALL), first)
    events: list[str] = []

    def listen() -> None:
        for it in client.listen("/a"):
            events.append(it.data)

    def publish(data: str) -> bool:
        nginx.send(channel="/a", data=data)
        return data in events or listening.done()

    with concurrent.futures.ThreadPoolExecutor() as pool, Client(f"{nginx.address}/cometd") as client:
        listening = pool.submit(listen)
        wait_until("the client gets events of the first", lambda: publish("first"))
        changes = {"127\\.0\\.0\\.1:8087": text_of(first.address), "127.0.0.1:8088": text_of(second.address)}
        command = adapt(block("Upgrade", "sh", 1), nginx.folder, changes).replace("nginx -s", f"{' '.join(nginx.args)} -s")
        subprocess.run(["bash", "-ec", command], check=True)
        wait_until("the first server has answered, and the client comes to the second", lambda: caplog.records or listening.done())
        first.close()
        wait_until("the client gets events of the second", lambda: publish("second"))
    listening.result()
    assert [str(failure) for _, failure in (it.args for it in caplog.records)] == ["402::Unknown client"]


def test_paths_lead_to_several_machines(server, recipe, folder: Path) -> None:
    chat, news = server(), server()
    changes = {"192.0.2.1:8087": text_of(chat.address), "192.0.2.2:8087": text_of(news.address)}
    (folder / "etc/nginx/conf.d/several.conf").write_text(adapt(block("Several machines"), folder, changes), encoding="utf-8")
    nginx = recipe(block("Several machines", at=1), folder=folder)
    for path in ("/cometd/chat", "/cometd/news", "/cometd/news/"):
        ben, ann = nginx.handshake(path), nginx.handshake(path)
        nginx.send(path, channel="/meta/subscribe", subscription="/a/*", clientId=ben)
        nginx.send(path, channel="/a/b", data="Hello", clientId=ann)
        assert nginx.send(path, **CONNECT, clientId=ben)[0] == {"channel": "/a/b", "data": "Hello"}
    nginx.expect_kept_connection(chat, "/cometd/chat")
    nginx.expect_kept_connection(news, "/cometd/news")
    message = {**CONNECT, "advice": {"timeout": 0}, "clientId": nginx.handshake("/cometd/chat")}
    assert nginx.send("/cometd/chat", **message)[0]["successful"] is True
    assert nginx.send("/cometd/news", **message)[0]["error"] == "402::Unknown client"


def test_status_page_and_its_metrics_are_for_allowed_addresses(server, recipe) -> None:
    changes = {"127.0.0.1:9087": text_of(server().metrics)}
    nginx = recipe(block("A status page"), changes=changes)
    page, metrics = nginx.ask("/status/", "GET"), nginx.ask("/status/metrics", "GET")
    assert page.status == 200 and "<title>bayeuxd</title>" in page.text and "fetch('metrics'" in page.text
    assert metrics.status == 200 and "bayeux_sessions 0\n" in metrics.text
    other = recipe(block("A status page"), changes={**changes, "allow 127.0.0.1;": "allow 192.0.2.1;"})
    assert [other.status(it, "GET") for it in ("/status/", "/status/metrics")] == [403, 403]
