"""packaging/bayeuxd-run, which starts a bayeuxd and shuts it down gracefully at a signal."""
import contextlib
import os
import shutil
import signal
import socket
import subprocess

import pytest

from base import TOP, child_of, make_program, wait_until
from daemon import TIMEOUT_SECONDS, check_serves, hold_connect
from metrics import REQUESTS_HELD

ENTRY = f"{TOP}/packaging/bayeuxd-run"
ENDED = b"[INFO  bayeuxd] ended\n"
SIGNALS = signal.SIGTERM, signal.SIGINT, signal.SIGHUP
SHELLS = [["sh"], ["dash"], ["bash", "--posix"], ["busybox", "ash"]]
# A program ignores SIGINT and SIGHUP if these tests run in the background.
WITH_SIGNALS = ["env", "--default-signal=INT,HUP"]
# Runs a program as process 1, with its own /proc.
AS_PROCESS_1 = ["unshare", "--user", "--map-root-user", "--pid", "--fork", "--kill-child", "--mount", "--mount-proc"]


@pytest.fixture
def launch(daemon, program, clock, tmp_path):
    """Starts daemons on `clock`, with a record, by bayeuxd-run: `launch(*flags, before=.., **variables)`.

    The path of the record has spaces and an asterisk. `before`: the command line before bayeuxd-run. `variables`: of the environment.
    """
    folder = tmp_path / "bayeuxd run * "
    folder.mkdir()
    (tmp_path / "files").mkdir()
    (folder / "bayeuxd").symlink_to(os.path.abspath(program))

    def start(*flags, before=(), waits=True, **variables):
        env = {**clock.env, "PATH": f"{folder}:{os.environ['PATH']}", **variables}
        usual = ["--listen", "127.0.0.1:0", "--metrics", "127.0.0.1:0", "--record", str(folder / "record")]
        how = {"program": ENTRY, "before": [*WITH_SIGNALS, *before], "is_plain": True, "waits": waits}
        return daemon(*usual, *flags, env=env, **how)

    return start


def hold(server, stack):
    """Returns a connection whose connect `server` holds."""
    held = stack.enter_context(hold_connect(server.address, "/launched"))
    server.expect({REQUESTS_HELD: 1})
    return held


def expect_graceful_end(server, clock, send):
    """Calls `send`, and checks that `server` ends gracefully: held connects get 503, and the record is complete."""
    with contextlib.ExitStack() as stack:
        held = hold(server, stack)
        send()
        assert held.response().status == 503
    server.let_end(clock)
    assert any("recording complete" in it for it in server.logged())


def kill_twice(process_id, number):
    """Sends a signal, and then SIGINT, which changes nothing."""
    for it in (number, signal.SIGINT):
        os.kill(process_id, it)


@pytest.mark.parametrize("send", [os.kill, os.killpg, kill_twice], ids=["process", "group", "twice"])
@pytest.mark.parametrize("number", SIGNALS, ids=lambda it: it.name)
def test_signal_ends_the_daemon_gracefully(launch, clock, number, send, tmp_path):
    """No file of bayeuxd-run is left once the daemon runs."""
    server = launch(TMPDIR=str(tmp_path / "files"))
    assert not list((tmp_path / "files").iterdir())
    expect_graceful_end(server, clock, lambda: send(server.process.pid, number))


@pytest.mark.parametrize("shell", SHELLS, ids=lambda it: it[0])
def test_shells(launch, clock, shell):
    """Also if no file can be written."""
    if not shutil.which(shell[0]):
        pytest.skip(f"there is no {shell[0]}")
    server = launch(before=shell, TMPDIR="/proc")
    expect_graceful_end(server, clock, server.process.terminate)


@pytest.mark.parametrize("number", SIGNALS, ids=lambda it: it.name)
@pytest.mark.parametrize("step", ["mkfifo", "rm"])
def test_signal_comes_before_the_daemon_runs(launch, clock, tmp_path, step, number):
    """While bayeuxd-run makes its pipes, and once they are open."""
    make_program(tmp_path / step, f'{shutil.which(step)} "$@"\nkill -{number.value} $PPID')
    with_stub = ["env", f"STUBS={tmp_path}", "sh", "-c", 'PATH="$STUBS:$PATH" exec "$0" "$@"']
    launch(before=with_stub, waits=False).let_end(clock)


@pytest.mark.parametrize("number", [signal.SIGTERM, signal.SIGINT], ids=lambda it: it.name)
def test_process_1(launch, clock, number):
    """As in a container."""
    if subprocess.run([*AS_PROCESS_1, "true"], capture_output=True, check=False).returncode != 0:
        pytest.skip("unshare is not allowed")
    server = launch(before=AS_PROCESS_1)
    expect_graceful_end(server, clock, lambda: os.kill(child_of(server.process.pid), number))


def test_daemon_ends_gracefully_if_bayeuxd_run_is_killed(launch, clock):
    server = launch()
    with contextlib.ExitStack() as stack:
        held = hold(server, stack)
        server.status = -signal.SIGKILL
        server.process.kill()
        assert held.response().status == 503
    wait_until("the daemon ends", lambda: clock.add(1) or server.full_log().endswith(ENDED))


def test_limit_of_file_sizes_ends_the_record_alone(launch, clock):
    """The signal that the system sends at this limit would end a program that does not ignore it."""
    server = launch(before=["prlimit", "--fsize=20000"])

    def is_full():
        check_serves(server.address, "/full/" + "x" * 200)
        return any("recording ended early bytes=20000 " in it for it in server.logged())

    wait_until("the record is full", is_full, pause=0)
    check_serves(server.address, "/after")
    server.process.terminate()
    server.let_end(clock)


STATUSES = [(["--wrong"], 2, {}), (["--readers", "TAKEN"], 1, {}), (["--version"], 0, {}), ([], 127, {"PATH": "/usr/bin:/bin"})]


@pytest.mark.parametrize("flags, status, variables", STATUSES, ids=["wrong flag", "taken", "version", "no program"])
def test_status_is_that_of_the_daemon(launch, flags, status, variables):
    with socket.create_server(("127.0.0.1", 0)) as taken:
        address = f"127.0.0.1:{taken.getsockname()[1]}"
        server = launch(*(it.replace("TAKEN", address) for it in flags), waits=False, **variables)
        server.status = status
        assert server.process.wait(TIMEOUT_SECONDS) == status


def test_status_of_a_killed_daemon(launch):
    server = launch()
    server.status = 128 + signal.SIGKILL
    os.kill(child_of(server.process.pid), signal.SIGKILL)
    assert server.process.wait(TIMEOUT_SECONDS) == server.status


@pytest.fixture
def notified(tmp_path):
    """The socket of systemd."""
    if not shutil.which("systemd-notify"):
        pytest.skip("there is no systemd-notify")
    with socket.socket(socket.AF_UNIX, socket.SOCK_DGRAM) as it:
        it.bind(str(tmp_path / "notify"))
        it.settimeout(TIMEOUT_SECONDS)
        yield it


def test_systemd_gets_a_message_once_the_daemon_listens(launch, clock, notified):
    server = launch("--readers", "127.0.0.1:0", waits=False, NOTIFY_SOCKET=notified.getsockname())
    lines = notified.recv(1000).decode().split("\n")
    # systemd-notify waits until this second message is read.
    assert notified.recv(1000) == b"BARRIER=1"
    server.address = server.logged_address("] listening address=")
    check_serves(server.address, "/ready")
    server.process.terminate()
    server.let_end(clock)
    assert {"READY=1", "STATUS=listening %s:%d" % server.address} <= set(lines)


def test_systemd_gets_no_message_if_the_daemon_cannot_listen(launch, notified):
    server = launch("--wrong", waits=False, NOTIFY_SOCKET=notified.getsockname())
    server.status = 2
    assert server.process.wait(TIMEOUT_SECONDS) == 2
    notified.setblocking(False)
    with pytest.raises(BlockingIOError):
        notified.recv(1000)
