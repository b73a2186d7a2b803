"""Addresses of the listeners: in use, of a name, of IPv6, and of this machine."""
import contextlib
import os
import socket
import subprocess

import pytest

from base import has_ipv6, reserved_port
from daemon import SEED, check_serves, open_session
from runs import ANYWHERE, cannot, match, no_place, run, without_times

# Runs a command with its own /etc/hosts, in which a name has three addresses.
WITH_HOSTS = ["unshare", "--user", "--map-root-user", "--mount", "sh", "-c", 'mount --bind "$0" /etc/hosts && exec "$@"']
HOSTS = "".join(f"127.0.0.{number} three.test\n" for number in (1, 2, 3))
LISTENERS = {"--listen": "] listening", "--readers": "] readers listening", "--metrics": "] metrics listening"}


@pytest.fixture
def taken():
    """An address that is in use."""
    with socket.create_server(("127.0.0.1", 0)) as listener:
        yield f"127.0.0.1:{listener.getsockname()[1]}"


@pytest.mark.parametrize("kind", ["--listen", "--readers", "--listen with readers", "--metrics", "arguments"])
def test_address_in_use_is_an_error_and_creates_no_record(program, taken, tmp_path, kind):
    args = {
        "--listen": ["--listen", taken],
        "--readers": [*ANYWHERE, "--readers", taken],
        "--listen with readers": ["--readers", "127.0.0.1:0", "--listen", taken],
        "--metrics": [*ANYWHERE, "--metrics", taken],
        "arguments": [taken, "2", "30000", "0", "10000", SEED, "1"],
    }[kind]
    record = [] if kind == "arguments" else ["--record", f"{tmp_path}/record"]
    status, output, errors = run(program, [*args, *record])
    assert (status, output) == (1, "")
    wanted = cannot("cannot listen for metrics", taken) if kind == "--metrics" else no_place(taken)
    assert match(without_times(errors.splitlines())[1:], wanted), errors
    assert not os.listdir(tmp_path)


@pytest.mark.parametrize("is_third", [False, True], ids=["first", "third"])
@pytest.mark.parametrize("flag", LISTENERS)
def test_listener_is_at_the_first_free_address_of_a_name(program, tmp_path, flag, is_third):
    (tmp_path / "hosts").write_text(HOSTS, encoding="ascii")
    within = [*WITH_HOSTS, tmp_path / "hosts"]
    if subprocess.run([*within, "true"], capture_output=True, check=False).returncode:
        pytest.skip("unshare is not allowed")
    with contextlib.ExitStack() as stack:
        port, host = stack.enter_context(reserved_port()), "127.0.0.3" if is_third else "127.0.0.1"
        for it in ("127.0.0.1", "127.0.0.2") if is_third else ():
            stack.enter_context(socket.create_server((it, port)))
        others = [] if flag == "--listen" else ANYWHERE
        args = [*within, program, flag, f"three.test:{port}", *others, "--until-eof"]
        status, output, errors = run(args[0], args[1:])
    assert status == 0
    assert f"{LISTENERS[flag]} address={host}:{port}\n" in errors
    assert output == f"listening {host}:{port}\n" or flag != "--listen"


@pytest.mark.skipif(not has_ipv6(), reason="this machine has no ::1")
def test_each_listener_serves_at_an_address_of_ipv6(daemon, client):
    server = daemon("--listen", "[::1]:0", "--readers", "[::1]:0", "--metrics", "[::1]:0")
    own = server.logged_address("] listening address=")
    assert {server.address[0], own[0], server.readers[0], server.metrics[0]} == {"::1"}
    assert server.address == own
    check_serves(own, "/six")
    open_session(client(server.readers))
    server.scrape()


def own_addresses():
    """Returns the addresses from which this machine would reach others, without those of loopback. Sends nothing."""
    found = []
    for family, other in ((socket.AF_INET, "192.0.2.1"), (socket.AF_INET6, "2001:db8::1")):
        with contextlib.suppress(OSError), socket.socket(family, socket.SOCK_DGRAM) as it:
            it.connect((other, 9))
            found.append(it.getsockname()[0])
    return found


@pytest.mark.parametrize("at", [pytest.param(0, id="IPv4"), pytest.param(1, id="IPv6")])
def test_clients_are_served_at_addresses_of_this_machine(daemon, client, at):
    if len(own_addresses()) <= at:
        pytest.skip("this machine has no such address")
    address = own_addresses()[at]
    server = daemon("--listen", f"[{address}]:0" if ":" in address else f"{address}:0", "--connections", "1")
    with client(server) as connection:
        open_session(connection)
    server.expect_end()
