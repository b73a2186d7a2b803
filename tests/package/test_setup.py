"""gadzilk-setup puts nginx in front of the installed service, on a machine without Prometheus and in one with other sites."""
import json
import re

import pytest
from base import retry
from browser import browsing
from nginx import Nginx
from pages import Chat, talk

SITE = "https://localhost"
CERTIFICATE = "openssl req -x509 -newkey rsa:2048 -nodes -days 30 -subj /CN=localhost -keyout key.pem -out chain.pem"
EVENT = {"channel": "/chat/hall", "data": "Hello"}
# Files that an operator may have changed before.
KEPT = ("/etc/nginx/nginx.conf", "/etc/default/bayeuxd")


@pytest.fixture
def certified(installed):
    """A container with the package and a certificate."""
    installed.run(CERTIFICATE)
    return installed


def listening(machine):
    """Returns the addresses at which programs of the container listen, except those of IPv4's loopback."""
    lines = machine.run("ss -Hltn").splitlines()
    return {it for it in (line.split()[3] for line in lines) if not it.startswith("127.0.0.1:")}


def expect_visitors_to_read():
    """Checks that visitors get what a program publishes, and cannot publish."""
    nginx, program = Nginx(SITE), Nginx("http://127.0.0.1:8087")
    visitor = nginx.handshake()
    nginx.send(channel="/meta/subscribe", subscription="/chat/*", clientId=visitor)
    assert nginx.status(body=json.dumps([{**EVENT, "clientId": visitor}])) == 403
    assert program.send(**EVENT, clientId=program.handshake())[0]["successful"] is True
    assert nginx.send(channel="/meta/connect", connectionType="long-polling", clientId=visitor)[0] == EVENT


def test_setup_runs_twice(certified):
    replaced = [certified.read(it) for it in KEPT]
    output = certified.run("gadzilk-setup localhost")
    assert f"Visitors read at {SITE}/cometd" in output
    assert [certified.read(f"{it}.~1~") for it in KEPT] == replaced
    certified.wait("only nginx listens", lambda: listening(certified) == {"0.0.0.0:80", "0.0.0.0:443", "[::]:80", "[::]:443"})
    with certified.network():
        for it in ("", "chat/", "chat/chat.js", "common/page.css", "client/bayeux.js", "dashboard/"):
            assert Nginx(SITE).status(f"/{it}", "GET") == 200, it
        # On a slow machine, a session may expire meanwhile.
        retry(expect_visitors_to_read, 9)
    query = "curl -s http://127.0.0.1:9090/api/v1/{} || true"
    certified.wait("Prometheus scrapes bayeuxd", lambda: '"1"' in certified.run(query.format("query?query=up%7Bjob=%22bayeuxd%22%7D")))
    assert "BayeuxGone" in certified.run(query.format("rules"))
    # Again, with a page that an operator changed.
    certified.write("/var/www/bayeux/chat/index.html", "changed")
    state = "systemctl show -P MainPID bayeuxd nginx prometheus; find /etc -type f | sort | xargs md5sum"
    before = certified.run(state)
    assert "wrote" not in certified.run("gadzilk-setup localhost")
    assert certified.run(state) == before
    assert certified.read("/var/www/bayeux/chat/index.html") == "changed"
    certified.run(f"{CERTIFICATE}; gadzilk-setup localhost; cmp chain.pem /etc/nginx/bayeux/chain.pem; test -e /etc/nginx/bayeux/chain.pem.~1~")


def test_exporter_that_is_there_listens_on_loopback(certified):
    certified.run("apt-get install -y --no-install-recommends prometheus prometheus-node-exporter")
    certified.wait("both listen at all addresses", lambda: {"*:9090", "*:9100"} <= listening(certified))
    certified.run("gadzilk-setup localhost")
    certified.wait("both listen on loopback", lambda: not {it for it in listening(certified) if not it.endswith((":80", ":443"))})


def test_setup_changes_nothing_if_it_cannot_start(certified):
    before = certified.run("find /etc /var/www | sort")
    for prepare, arguments, wanted in [
        ("mv key.pem other.pem", "localhost", "there is no key.pem in the folder ."),
        ("mv other.pem key.pem; touch {}/sites-enabled/shop", "localhost", "nginx already serves /etc/nginx/sites-enabled/shop"),
        ("rm {}/sites-enabled/shop; touch {}/conf.d/shop.conf", "localhost", "nginx already serves /etc/nginx/conf.d/shop.conf"),
        ("rm {}/conf.d/shop.conf", "", "usage: gadzilk-setup"),
        ("true", "'a b'", "expected a host name"),
        ("true", "--publish 'a' localhost", "--publish: expected a pattern"),
        ("true", "--publish '/a \"' localhost", "--publish: expected a pattern"),
    ]:
        certified.run(prepare.replace("{}", "/etc/nginx"))
        assert wanted in certified.run(f"gadzilk-setup {arguments}", status=1)
    assert certified.run("find /etc /var/www | sort") == before


def test_setup_stops_at_the_first_error(certified):
    certified.run("openssl genrsa -out key.pem")
    assert certified.run("gadzilk-setup localhost", status=1).endswith("gadzilk-setup: stopped, and did nothing further\n")
    state = "systemctl is-active nginx; curl -s http://127.0.0.1/ | grep -c Welcome; find /etc/nginx -name '*.pem'"
    assert certified.run(state).split() == ["active", "2"], "nginx got a key of another certificate"
    other = "systemd-run --unit other{0} python3 -m http.server {0} --bind 0.0.0.0"
    certified.run(f"{CERTIFICATE}; systemctl stop prometheus; {other.format(443)}; {other.format(9090)}")
    certified.wait("other programs have the ports", lambda: {"0.0.0.0:443", "0.0.0.0:9090"} <= listening(certified))
    assert "nginx does not start: nginx: [emerg] bind() to 0.0.0.0:443 failed" in certified.run("gadzilk-setup localhost", status=1)
    certified.run("systemctl stop other443")
    assert "prometheus does not answer: " in certified.run("gadzilk-setup localhost", status=1)
    certified.run("systemctl stop other9090; gadzilk-setup localhost")


@pytest.mark.browser
def test_visitors_chat_if_they_may_publish(certified):
    certified.run("gadzilk-setup --publish '/chat/**' localhost")
    with certified.network(), browsing() as browser:
        talk(*(Chat(browser, f"{SITE}/chat/", name) for name in ("Ann", "Ben")))
    log = certified.read("/var/log/nginx/access.log")
    assert re.search(r'"POST /cometd" 200 .* PASSED$', log, re.M)
