"""What the tests of deployments share: nginx in front of daemons, and the texts of recipes."""
import contextlib
import shutil

import nginx as nginx_server
import pytest


@pytest.fixture
def need():
    """Skips a test unless the programs are installed: `need("nginx", "openssl")`."""

    def check(*programs):
        for it in programs:
            if not shutil.which(it):
                pytest.skip(f"there is no {it}")

    return check


@pytest.fixture
def server(daemon):
    """Starts a daemon in which no session expires: `server(*flags)`. A connect is held for 30 seconds, as by default."""
    return lambda *flags: daemon("--timeout=30s", *flags)


@pytest.fixture
def recipe(need, tmp_path_factory):
    """Starts nginx with a recipe: `recipe(text, server, changes)` returns an `Nginx`.

    `text`: that of server blocks. `server`: the daemon in place of 127.0.0.1:8087. `changes`: new texts by old texts of the recipe.
    `shared`: those of bayeux.conf and location.conf.
    """
    need("nginx")
    with contextlib.ExitStack() as stack:

        def start(text, server=None, changes=None, folder=None, shared=None):
            shared = {**({"127.0.0.1:8087": "%s:%d" % server.address} if server else {}), **(shared or {})}
            folder = folder or tmp_path_factory.mktemp("nginx")
            folder.chmod(0o755)
            return stack.enter_context(nginx_server.serving_recipe(folder, text, changes or {}, shared))

        yield start


@pytest.fixture
def site(nginx, tmp_path):
    """Starts nginx with nginx.conf: `site(server, changes)` returns an `Nginx`."""
    tmp_path.chmod(0o755)
    return lambda server, changes=None: nginx_server.Nginx(nginx(server.address[1], changes), folder=tmp_path / f"nginx-{server.address[1]}")
