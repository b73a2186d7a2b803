"""nginx with packaging/nginx/nginx.conf: header fields, longest bodies and queries, TLS, logs, and the limits of all configurations."""
import json
import re
import socket
import ssl
import urllib.parse
from pathlib import Path

import pytest
from base import TIMEOUT_SECONDS, read, wait_until
from bayeuxd import Bayeuxd
from nginx import Nginx, has_ipv6

# The most bytes of a request's body with the package's flags, and of a query that is shorter than the longest request line, 64 KiB
# (docs/PROTOCOL.md, "Requests").
BODY, QUERY = 65_536, 60_000
# How long a server holds a connect by default, and keeps an idle connection, in seconds.
HOLD, IDLE = 30, 30
# The lines of the configuration that disable callback-polling.
CALLBACK_POLLING_OFF = "limit_except POST {\n    deny all;\n}\n"
# Header fields: of all responses at /cometd, of the server's answers, of rejections, and of files.
NGINX, NO_SNIFF = {"Server": "nginx"}, {"X-Content-Type-Options": "nosniff"}
HERE = {**NGINX, "Cache-Control": "no-store", "Content-Disposition": 'attachment; filename="f.txt"', **NO_SNIFF}
ANSWER, REJECTED = {**HERE, "Content-Type": "application/json;charset=UTF-8"}, {**HERE, "Content-Type": "text/html"}
PAGE = {**NGINX, "Content-Type": "text/html; charset=utf-8"}
POLICY = {"Content-Security-Policy": "default-src 'self'; img-src 'self' data:", "Accept-Ranges": "bytes", **NO_SNIFF}
# Requests with a name: their path, method, body and header fields, and the status and the header fields of the response.
REQUESTS: dict[str, tuple[list[str], dict[str, str], int, dict[str, str]]] = {
    "an answer": (["/cometd"], {}, 200, ANSWER),
    "an answer below": (["/cometd/setup.bat"], {}, 200, ANSWER),
    "an answer to a page of this site": (["/cometd"], {"Origin": "ADDRESS", "Sec_Fetch_Site": "same-origin"}, 200, ANSWER),
    "the longest body": (["/cometd", "POST", "[]".ljust(BODY)], {}, 200, ANSWER),
    "a longer body": (["/cometd", "POST", "[]".ljust(BODY + 1)], {}, 413, REJECTED),
    "a body that is no JSON": (["/cometd", "POST", "x"], {}, 400, {**HERE, "bayeux-error": "the messages are not JSON"}),
    "another site's page": (["/cometd"], {"Origin": "https://other.example"}, 403, REJECTED),
    "a page of a host whose name begins alike": (["/cometd"], {"Origin": "https://localhost.example"}, 403, REJECTED),
    "a page of a host below": (["/cometd"], {"Origin": "https://sub.localhost"}, 403, REJECTED),
    "a page without an origin": (["/cometd"], {"Origin": "null"}, 403, REJECTED),
    "a page of a sister host": (["/cometd"], {"Sec_Fetch_Site": "same-site"}, 403, REJECTED),
    "a page of another site": (["/cometd"], {"Sec_Fetch_Site": "cross-site"}, 403, REJECTED),
    "the user, without a page": (["/cometd"], {"Sec_Fetch_Site": "none"}, 200, ANSWER),
    "callback-polling": (["/cometd?jsonp=a&message=SECRET", "GET"], {}, 403, REJECTED),
    "a page": (["/hello.html?SECRET", "GET"], {}, 200, {**PAGE, **POLICY}),
    "a script": (["/hello.js", "GET"], {}, 200, {**NGINX, **POLICY, "Content-Type": "application/javascript; charset=utf-8"}),
    "a page that is not there": (["/other.html", "GET"], {}, 404, PAGE),
    "another name": (["/hello.html?SECRET", "GET"], {"Host": "other.example"}, 421, {**NGINX, "Content-Type": "text/html"}),
}
# Requests as the log has them, and the form of its lines, which have no query.
LOGGED = {"POST /cometd 200", "GET /cometd 403", "GET /hello.html 200", "GET /other.html 404", "GET /hello.html 421", "GET /a/b.html 301"}
LOG_LINE = (
    r'(127\.0\.0\.1|::1) \[\d\d/\w{3}/\d{4}(:\d\d){3} [+-]\d{4}\] "[A-Z]+ /[^ ?"]*" '
    r"\d{3} \d+ (-|\d{3}) (-|\d+\.\d{3}) (-|PASSED|DELAYED|REJECTED)"
)


@pytest.fixture
def found(server) -> Bayeuxd:
    """A daemon."""
    return server()


@pytest.fixture
def front(found: Bayeuxd, site, tmp_path: Path) -> Nginx:
    """nginx in front of the daemon, with two files for browsers."""
    (tmp_path / "site").mkdir()
    for name in ("hello.html", "hello.js"):
        (tmp_path / "site" / name).write_text("text", encoding="ascii")
    return site(found, {"/var/www/bayeux": f"{tmp_path}/site"})


def test_header_fields_and_logs(front: Nginx) -> None:
    """All requests are in the log, and no log has a query."""
    for what, (args, headers, status, fields) in REQUESTS.items():
        response = front.ask(*args, **{name: value.replace("ADDRESS", front.address) for name, value in headers.items()})
        assert (response.status, response.fields) == (status, fields), what
    listen = re.search(r"listen (127\.0\.0\.1:\d+);", (front.folder / "etc/nginx/nginx.conf").read_text(encoding="utf-8"))
    assert listen
    redirect = Nginx(f"http://{listen[1]}").ask("/a/b.html?SECRET", "GET", Host="localhost")
    assert (redirect.status, redirect.getheader("Location")) == (301, "https://localhost/a/b.html?SECRET")
    log = front.folder / "var/log/nginx/access.log"
    # nginx writes the line of a request after the response.
    for line in [re.sub(r"(.*) ", r'"\1" ', it) for it in LOGGED]:
        wait_until(f"the log has {line}", lambda line=line: line in log.read_text(encoding="utf-8"))
    assert [it for it in log.read_text(encoding="utf-8").splitlines() if not re.fullmatch(LOG_LINE, it)] == []
    assert [it.name for it in front.folder.glob("**/*.log") if "SECRET" in it.read_text(encoding="utf-8")] == []


def test_browsers_get_http_2(front: Nginx) -> None:
    context = ssl._create_unverified_context()
    context.set_alpn_protocols(["h2", "http/1.1"])
    with socket.create_connection(front.place, TIMEOUT_SECONDS) as connection:
        with context.wrap_socket(connection, server_hostname="localhost") as it:
            assert it.selected_alpn_protocol() == "h2"


def test_requests_share_a_connection_to_the_server(front: Nginx, found: Bayeuxd) -> None:
    front.expect_kept_connection(found)


def test_long_query_of_callback_polling_is_answered_if_it_is_allowed(server, site) -> None:
    message = urllib.parse.quote(json.dumps([{"channel": "/a", "data": "x" * QUERY}]))
    response = site(server(), {CALLBACK_POLLING_OFF: ""}).ask(f"/cometd?jsonp=a&message={message}", "GET")
    assert (response.status, response.getheader("Cache-Control")) == (200, "no-store")


def test_ipv6_is_served(front: Nginx) -> None:
    if not has_ipv6():
        pytest.skip("the machine has no IPv6")
    assert Nginx(f"https://[::1]:{front.place[1]}").status(Host="localhost") == 200


def test_clients_have_the_limits_and_a_worker_has_the_connections_of_the_documents() -> None:
    recipes, protocol, configure = (" ".join(read(f"docs/{it}.md").split()) for it in ("RECIPES", "PROTOCOL", "CONFIGURE"))
    sentence = r"(\d+) requests of less than 1,000 bytes a second, and (\d+) longer ones, and have (\d+) open\."
    sentence += r" If requests come faster, (\d+) short ones pass at once\. Then nginx delays (\d+) short requests and (\d+) long ones\."
    found = re.search(sentence, recipes), re.search(r"bytes \(([\d,]+) with the package's `--body`\)", protocol)
    allowed = re.search(r"`nginx\.conf` allows ([\d,]+) per worker", configure)
    assert found[0] and found[1] and allowed
    short, long, windows, passing, delayed, long_delayed = map(int, found[0].groups())
    text = " ".join("".join(read(f"packaging/nginx/{it}") for it in ("bayeux.conf", "location.conf", "nginx.conf")).split())
    lines = [f"zone=bayeux_{name}:10m rate={rate}r/s" for name, rate in (("short", short), ("long", long))]
    lines += [f"limit_conn bayeux_connections {windows}", f"zone=bayeux_short burst={passing + delayed} delay={passing}"]
    lines += [f"zone=bayeux_long burst={long_delayed}", f"client_max_body_size {int(found[1][1].replace(',', '')) // 1024}k"]
    lines += ["limit_conn_status 429", "limit_req_status 429", f"worker_connections {allowed[1].replace(',', '')}"]
    assert [it for it in lines if f"{it};" not in text] == []


def test_nginx_has_files_for_its_connections_outwaits_the_server_and_closes_idle_connections_first() -> None:
    text = "".join(read(f"packaging/nginx/{it}") for it in ("bayeux.conf", "location.conf", "nginx.conf"))
    names = ("proxy_read_timeout", "keepalive_timeout", "worker_connections", "worker_rlimit_nofile")
    (reads,), (idle,), (connections,), (files,) = ([int(it) for it in re.findall(rf"^ *{name} (\d+)s?;", text, re.M)] for name in names)
    # A held connect has two connections, and each of them is a file.
    assert reads >= HOLD + 10 and idle <= IDLE - 5 and files >= 2 * connections
