"""Seeds of client ids: which files are accepted, that ids are those of the seed, and that no log has it."""
import contextlib
import fcntl
import os
import re
import termios
import threading

import pytest

from base import wait_until
from chacha import drawn
from daemon import SEED, open_session
from runs import ANYWHERE, cannot, match, run, without_times

# The contents of a seed file: those that are right, and those that are not. A longer one is too long, also if it never ends.
RIGHT = [SEED, f"{SEED}\n", f"{SEED.upper()}\r\n", f"{SEED} \t\n\n", f"{SEED}{' ' * 900}\n"]
WRONG = ["", "\n", SEED[:-1], f"{SEED}0", SEED * 2, f" {SEED}", f"\n{SEED}", f"{SEED}\n#", f"g{SEED[1:]}", f"0x{SEED}"]
WRONG += [f"{SEED[:32]}\n{SEED[32:]}", f"{SEED[2:]}\n\n"]
TOO_LONG = f"{SEED}{' ' * 4096}"
SEED_FORM = "bayeuxd: a seed has 64 hexadecimal digits"


def expect_first_id(server, connection):
    """Checks that the first client id is the one of `SEED`, and that the log does not have the seed."""
    assert open_session(connection) == {"clientId": f"{drawn(SEED, 0)}{1:016x}"}
    assert SEED[:8] not in server.full_log().decode().lower()


def expect_rejected(program, path, *more):
    """Checks that a daemon rejects the seed at `path`. `more`: what else it prints."""
    status, output, errors = run(program, [*ANYWHERE, "--until-eof", "--seed-file", str(path)])
    assert (status, output) == (1, "")
    lines = without_times(errors.splitlines())
    assert match(lines, [*cannot("cannot read the seed", str(path)), *more]), lines


@pytest.mark.parametrize("seed", RIGHT, ids=range(len(RIGHT)))
def test_client_ids_are_those_of_the_seed(daemon, client, tmp_path, seed):
    (tmp_path / "seed").write_bytes(seed.encode())
    server = daemon("--seed-file", str(tmp_path / "seed"))
    expect_first_id(server, client(server))


@pytest.mark.parametrize("seed", WRONG, ids=range(len(WRONG)))
def test_wrong_seed_is_rejected(program, tmp_path, seed):
    (tmp_path / "seed").write_bytes(seed.encode())
    expect_rejected(program, tmp_path / "seed", SEED_FORM)


@pytest.mark.parametrize("path", ["/nowhere/seed", "/"])
def test_seed_that_cannot_be_read_is_rejected(program, path):
    expect_rejected(program, path)


def write_in_pieces(path, text):
    """Writes `text` to the named pipe at `path` in pieces. Waits until each is read before it writes the next."""
    with contextlib.suppress(BrokenPipeError), open(path, "wb", buffering=0) as pipe:
        for piece in re.findall(rb"..?", text.encode(), re.DOTALL):
            pipe.write(piece)
            wait_until("a piece is read", lambda: not any(fcntl.ioctl(pipe, termios.FIONREAD, bytes(4))), pause=0.001)


def test_seed_may_come_through_a_pipe_in_pieces(daemon, client, tmp_path):
    path = tmp_path / "seed"
    os.mkfifo(path)
    threading.Thread(target=write_in_pieces, args=(path, RIGHT[-2]), daemon=True).start()
    server = daemon("--seed-file", str(path))
    expect_first_id(server, client(server))


def test_endless_seed_is_rejected(program, tmp_path):
    """The other end of the pipe stays open, as that of /dev/urandom."""
    path = tmp_path / "seed"
    os.mkfifo(path)
    writer = os.open(path, os.O_RDWR | os.O_NONBLOCK)
    try:
        os.write(writer, TOO_LONG.encode())
        expect_rejected(program, path, SEED_FORM)
    finally:
        os.close(writer)
