"""What `./bayeux test` adds to the tests of the clients, which also run by themselves: the bayeuxd under test."""
import os

import pytest


@pytest.fixture(autouse=True)
def bayeuxd(request, monkeypatch):
    """Names the program for the tests that start a daemon."""
    if "start" in request.fixturenames:
        monkeypatch.setenv("BAYEUXD", os.path.abspath(request.getfixturevalue("program")))
