"""The fixtures of the tests."""
from __future__ import annotations

import contextlib
import os
import pathlib
import sys
from collections.abc import Callable, Iterator

import pytest
from servers import PATIENCE, Script

from gadzilk_client import Client

sys.path.append(str(pathlib.Path(__file__).resolve().parents[3] / "tests/lib"))
from bayeuxd import Bayeuxd  # noqa: E402


@pytest.fixture
def script() -> Iterator[Script]:
    server = Script()
    yield server
    server.shutdown()
    server.server_close()


@pytest.fixture
def client(script: Script) -> Iterator[Client]:
    with Client(script.url, timeout=PATIENCE, min_pause=0.001, max_pause=0.01) as it:
        yield it


@pytest.fixture
def start(tmp_path: pathlib.Path) -> Iterator[Callable[..., Bayeuxd]]:
    """Starts daemons: `start(*flags)` returns a `Bayeuxd` that listens, and has a `url`. They end with the test."""
    program = os.environ.get("BAYEUXD")
    if not program:
        pytest.skip("BAYEUXD does not name a bayeuxd")
    with contextlib.ExitStack() as stack:

        def start(*flags: str) -> Bayeuxd:
            it = stack.enter_context(Bayeuxd(program, tmp_path / "bayeuxd.log", *flags))
            it.wait()
            it.url = "http://%s:%d/cometd" % it.address
            return it

        yield start
