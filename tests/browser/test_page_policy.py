"""The pages that README.md and docs/CLIENT.md show run with the Content-Security-Policy of packaging/nginx/nginx.conf."""
from __future__ import annotations

import re
import shutil

from base import TOP, read, wait_until

# The page of the documents, and the heading, below which are the blocks of each page.
PAGES = {"hello": ("README.md", "Connect your own page"), "page": ("docs/CLIENT.md", "The client for web pages")}
INLINE_SCRIPT = "document.body.append(Object.assign(document.createElement('script'), { textContent: 'window.ran = true' }))"
# The first event may be published before the page has subscribed.
PUBLISH = "client.publish('/chat/hall', 'Hello'); return window.seen"


def test_pages_of_the_documents_get_events(server, nginx, window, tmp_path):
    folder = tmp_path / "site"
    shutil.copytree(TOP / "examples/client", folder / "examples/client")
    shutil.copy(TOP / "examples/client/bayeux.js", folder)
    for name, (page, title) in PAGES.items():
        for kind in ("html", "js"):
            block = re.search(rf"^#+ {title}\n.*?^```{kind}\n(.*?)^```$", read(page), re.M | re.S)
            (folder / f"{name}.{kind}").write_text(block[1], encoding="utf-8")
    address = nginx(server.port, {"/var/www/bayeux": str(folder)})
    hello, page = window(f"{address}/hello.html"), window(f"{address}/page.html")
    wait_until("the page of README is connected", lambda: "connected" in hello.text("#log").split())
    hello.click("#hello")
    wait_until("it shows its event", lambda: '/chat/hall {"name":"Page","text":"Hello"}' in hello.text("#log"))
    hello.run(INLINE_SCRIPT)
    wait_until("an inline script is blocked", lambda: hello.run("return troubles.splice(0)"))
    assert not hello.run("return window.ran")
    wait_until("that of CLIENT is connected", lambda: page.run("return typeof client === 'object' && client.state") == "connected")
    page.run("client.subscribe('/chat/*', (data) => (window.seen = data))")
    wait_until("it gets an event", lambda: page.run(PUBLISH) == "Hello")
