"""The program strace, which shows system calls of a process, or makes them fail."""
from __future__ import annotations

import contextlib
import signal
import subprocess
from pathlib import Path
from typing import Any, Callable

from base import TIMEOUT_SECONDS

STRACE = ["strace", "-D", "-f", "--seccomp-bpf", "-qq", "-ttt"]
NO_STRACE = "there is no strace, or it may not trace a process"
# The status of a shell that cannot change its folder.
CD_FAILED = 2


def failing(calls: str, error: str, when: str, output: str | Path = "/dev/null", path: str | Path = "") -> list[str]:
    """Returns the start of a command line: of each thread, some system calls then fail.

    `calls`: their name. `when`: which of them, in strace's notation: FIRST, FIRST..LAST, and +STEP. `output`: the file in which strace
    lists all of them. `path`: if given, only calls on this file fail.
    """
    only = ["-P", str(path)] if path else []
    return [*STRACE, "-o", str(output), *only, "-e", f"trace={calls}", "-e", f"inject={calls}:error={error}:when={when}"]


def can_trace() -> bool:
    """Returns `True` if strace is installed and can make calls of a process fail."""
    probe = [*failing("chdir", "EIO", "1+"), "sh", "-c", "cd /"]
    with contextlib.suppress(OSError):
        return subprocess.run(probe, stderr=subprocess.DEVNULL, check=False).returncode == CD_FAILED
    return False


def injected(path: str | Path) -> list[float]:
    """Returns the times of the calls that were made to fail, in seconds. `path`: the file with strace's output."""
    # All at once: a loop over the lines would take a line that strace is still writing for two.
    lines = Path(path).read_text(encoding="utf-8", errors="replace").splitlines(keepends=True)
    return [float(it.split()[1]) for it in lines if it.endswith("(INJECTED)\n")]


def start_traced(daemon: Callable, before: list[str], *flags: str) -> Any:
    """Starts a daemon with the fixture `daemon`, by strace, `before`. On a busy machine, strace may end it with SIGALRM after three seconds."""
    server = daemon(*flags, before=before, waits=False)
    try:
        server.wait()
    except AssertionError:
        if server.process.wait(TIMEOUT_SECONDS) != -signal.SIGALRM:
            raise
        server.status = -signal.SIGALRM
        return start_traced(daemon, before, *flags)
    return server
