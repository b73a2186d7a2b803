"""Runs nginx with the configurations of packaging/nginx, and sends requests to it."""
import contextlib
import getpass
import http.client
import json
import os
import pathlib
import re
import ssl
import subprocess
import urllib.parse

from base import TIMEOUT_SECONDS, TOP, can_connect, end, has_ipv6, read, reserved_port, wait_until
from daemon import HANDSHAKE

# How many requests nginx must send over one connection.
REQUESTS = 20
# Header fields that differ each time.
CHANGING = {"Date", "Content-Length", "Connection", "Last-Modified", "ETag"}


def write_configuration(folder, main, changes):
    """Writes `main`, bayeux.conf and location.conf below `folder`. `changes`: new texts by old texts, each of which one of them has."""
    for it in ("etc/nginx/conf.d", "etc/nginx/bayeux", "var/log/nginx"):
        os.makedirs(f"{folder}/{it}", exist_ok=True)
    texts = {"nginx.conf": main}
    texts |= {it: read(f"packaging/nginx/{os.path.basename(it)}") for it in ("conf.d/bayeux.conf", "bayeux/location.conf")}
    for old in changes:
        assert any(old in it for it in texts.values()), old
    for name, text in texts.items():
        text = adapt(text, folder, {old: new for old, new in changes.items() if old in text})
        pathlib.Path(folder, "etc/nginx", name).write_text(text, encoding="utf-8")


def temporary(folder):
    """Returns the lines of a configuration that move nginx's temporary files below `folder`."""
    return "".join(f"    {kind}_temp_path {folder}/{kind};\n" for kind in ("client_body", "proxy", "fastcgi", "uwsgi", "scgi"))


def own_changes(upstream, plain, secure, folder):
    """Returns the changes of nginx.conf for tests. `upstream`: the port of the server. `plain`, `secure`: the ports of nginx."""
    user = "user www-data;"
    changes = {user: f"user {getpass.getuser()};", "/run/nginx.pid": f"{folder}/nginx.pid", "/var/www/bayeux": f"{TOP}/examples"}
    for old, port in (("80", plain), ("443", secure)):
        changes[f"listen {old}"] = f"listen 127.0.0.1:{port}"
        changes[f"listen [::]:{old}"] = f"listen [::1]:{port}" if has_ipv6() else f"listen unix:{folder}/{port}"
    return {**changes, "127.0.0.1:8087": f"127.0.0.1:{upstream}", "bayeux.example": "localhost", "http {\n": "http {\n" + temporary(folder)}


def adapt(text, folder, changes):
    """Returns `text` with the system's folders moved below `folder`, and with `changes`, a mapping from old texts to new ones."""
    for old, new in changes.items():
        assert old in text, text
        text = text.replace(old, new)
    return re.sub(r"(?<![\w.-])(/etc/nginx/(?!mime)|/var/log/nginx/|/var/www)", rf"{folder}\1", text)


class Nginx:
    """A running nginx, or another server, at `address`, an origin. `args`: its command line. `folder`: that of its files."""

    def __init__(self, address, args=(), folder=""):
        self.address, self.args, self.folder = address, args, pathlib.Path(folder)

    @property
    def place(self):
        """The host and the port."""
        parts = urllib.parse.urlsplit(self.address)
        return parts.hostname, parts.port

    def connect(self):
        """Returns a new connection, which the context ends."""
        if self.address.startswith("http:"):
            return contextlib.closing(http.client.HTTPConnection(*self.place, timeout=TIMEOUT_SECONDS))
        # The certificate is that of the test.
        context = ssl._create_unverified_context()  # pylint: disable=protected-access
        return contextlib.closing(http.client.HTTPSConnection(*self.place, timeout=TIMEOUT_SECONDS, context=context))

    def ask(self, path="/cometd", method="POST", body="[]", **headers):
        """Sends a request, and returns the response, whose `text` is its body. `headers`: with _ in place of -."""
        with self.connect() as connection:
            return ask_over(connection, path, method, body, **headers)

    def status(self, *args, **headers):
        """Sends a request as `ask` does, and returns the status."""
        return self.ask(*args, **headers).status

    def send(self, path="/cometd", **message):
        """Sends a message, and returns the items of the response, whose status must be 200."""
        response = self.ask(path, body=json.dumps([message]))
        assert response.status == 200, response.text
        return json.loads(response.text)

    def handshake(self, path="/cometd", **members):
        """Opens a session, and returns its client id."""
        return self.send(path, **HANDSHAKE, **members)[0]["clientId"]

    def expect_kept_connection(self, server, path="/cometd", **headers):
        """Checks that nginx opens at most one connection to the daemon `server` for `REQUESTS` requests of one client."""
        before = server.scrape()["bayeux_connections_total", ""]
        with self.connect() as connection:
            assert {ask_over(connection, path, **headers).status for _ in range(REQUESTS)} == {200}
        assert server.scrape()["bayeux_connections_total", ""] <= before + 1


def ask_over(connection, path="/cometd", method="POST", body="[]", **headers):
    """Sends a request over `connection`, and returns the response, whose `text` is its body. `headers`: with _ in place of -.

    `fields` of the response are its header fields, without `CHANGING`.
    """
    fields = {"Content-Type": "application/json"} if method == "POST" else {}
    fields.update({name.replace("_", "-"): value for name, value in headers.items()})
    connection.request(method, path, body if method == "POST" else None, fields)
    response = connection.getresponse()
    response.text = response.read().decode()
    response.fields = {name: value for name, value in response.getheaders() if name not in CHANGING}
    return response


@contextlib.contextmanager
def running(folder, port):
    """Runs nginx with its configuration below `folder`, and yields its command line. Fails if it does not listen at `port`."""
    args = ["nginx", "-e", f"{folder}/error.log", "-c", f"{folder}/etc/nginx/nginx.conf"]
    process = subprocess.Popen([*args, "-g", "daemon off;"], stderr=subprocess.DEVNULL)
    try:
        wait_until("nginx listens", lambda: can_connect(port) or process.poll() is not None)
        assert process.poll() is None, pathlib.Path(folder, "error.log").read_text(encoding="utf-8")
        yield args
    finally:
        end(process)


@contextlib.contextmanager
def serving(upstream, folder, changes):
    """Runs nginx with nginx.conf, with `changes`, in front of the server at port `upstream`, and yields the address of nginx."""
    with reserved_port() as plain, reserved_port() as secure:
        write_configuration(folder, read("packaging/nginx/nginx.conf"), {**own_changes(upstream, plain, secure, folder), **changes})
        place = f"{folder}/etc/nginx/bayeux"
        how = ["-nodes", "-days", "1", "-subj", "/CN=localhost", "-keyout", f"{place}/key.pem", "-out", f"{place}/chain.pem"]
        subprocess.run(["openssl", "req", "-x509", "-newkey", "rsa:2048", *how], check=True, stderr=subprocess.DEVNULL)
        with running(folder, secure):
            yield f"https://localhost:{secure}"


@contextlib.contextmanager
def serving_recipe(folder, recipe, changes, shared):
    """Runs nginx with `recipe`, the text of server blocks, with `changes`, and yields an `Nginx`. `shared`: changes of the other files."""
    os.makedirs(f"{folder}/var/www/members", exist_ok=True)
    for page in ("index.html", "members/index.html"):
        pathlib.Path(folder, "var/www", page).write_text("a page", encoding="ascii")
    user = f"user {getpass.getuser()};" if os.geteuid() == 0 else ""
    with reserved_port() as port:
        main = f"""
        {user} worker_processes 2; pid {folder}/pid; events {{ worker_connections 1000; }}
        http {{
            access_log off; {temporary(folder)} include /etc/nginx/conf.d/*.conf;
            server {{ listen 127.0.0.1:{port}; root /var/www; {adapt(recipe, folder, changes)} }}
        }}"""
        write_configuration(folder, main, shared)
        with running(folder, port) as args:
            yield Nginx(f"http://127.0.0.1:{port}", args, folder)
