"""Starts servers for the benchmarks on loopback: bayeuxd, or a bare HTTP server to compare it with."""
import contextlib
import glob
import os
import subprocess
import sys
import tempfile

from base import TOP, CheckFailed
from daemon import SEED, Daemon

# How long a load may run, in seconds.
LIMIT = 120
# A line of a script for bayeux_replay, with a handshake.
HANDSHAKE_LINE = '0 P [{"channel":"/meta/handshake","version":"1.0","supportedConnectionTypes":["long-polling"]}]\n'


def message_line(channel, number, rest):
    """Returns a line of a script with one message of session `number`. `rest`: the further members of the message."""
    return f'0 P [{{"channel":"{channel}","clientId":"{number:048x}",{rest}}}]\n'


class ServerProcess(Daemon):
    """A running server."""

    def begin(self, args, **streams):
        """Starts the process and waits until it listens. If that fails, ends the process and raises the exception again."""
        self.errors = tempfile.TemporaryFile()
        self.process = subprocess.Popen(args, stdout=subprocess.PIPE, stderr=self.errors, start_new_session=True, **streams)
        try:
            self.wait()
        except BaseException:
            self.end()
            raise


class Server(ServerProcess):
    """A running bayeuxd or bare server."""

    def __init__(self, name, program, processors=None, connections=0, **streams):
        """Starts `program`, and waits until it listens.

        `name`: "bare" for the bare server. `processors`: those that it may use, as taskset takes them, or `None` for all.
        `connections`: the number of connections after which it ends, or 0 for never.
        """
        first = ["taskset", "-c", processors] if processors else []
        args = [] if name == "bare" else ["4", "30000", "0", "10000", SEED]
        self.begin([*first, program, "127.0.0.1:0", *args, str(connections)], **streams)


def run_load(program, address, args):
    """Runs `program`, bayeux_load, and returns how it ended. `args`: its arguments after the server's address.

    Raises `CheckFailed` if it takes longer than two minutes.
    """
    command = [program, "http://%s:%d/cometd" % address, *args.split()]
    try:
        return subprocess.run(command, capture_output=True, text=True, timeout=LIMIT, check=False)
    except subprocess.TimeoutExpired as error:
        raise CheckFailed(f"{args}: did not end within {LIMIT} seconds") from error


def processor_time(process):
    """Returns the processor time that a process and its running children took so far, in seconds. `process`: its id."""
    ticks = 0
    for path in glob.glob("/proc/[0-9]*/stat"):
        with contextlib.suppress(OSError), open(path, encoding="utf-8", errors="replace") as text:
            number, _, rest = text.read().partition(" (")
            fields = rest.rpartition(")")[2].split()
            if process in (int(number), int(fields[1])):
                ticks += int(fields[11]) + int(fields[12])
    return ticks / os.sysconf("SC_CLK_TCK")


@contextlib.contextmanager
def restricted(processors):
    """Lets the processes that are started in the context run only on `processors`."""
    before = os.sched_getaffinity(0)
    os.sched_setaffinity(0, processors)
    try:
        yield
    finally:
        os.sched_setaffinity(0, before)


def arguments(text, *ranges):
    """Returns the arguments as integers. For `--help`, prints the help `text` and exits with status 0.

    `ranges`: the least and the greatest value of each argument. All arguments are optional. If one is wrong, prints `text` and
    exits with status 2.
    """
    args = sys.argv[1:]
    if args in (["--help"], ["-h"]):
        print(text, end="")
        sys.exit(0)
    if len(args) > len(ranges) or not all(it.isdigit() and least <= int(it) <= most for it, (least, most) in zip(args, ranges)):
        print(text, end="", file=sys.stderr)
        sys.exit(2)
    return [int(it) for it in args]


def program_of(name, variable):
    """Returns the path of program `name`, which is built if it is missing.

    `variable`: the environment variable that may name another one. Exits with a message if that is missing.
    """
    given = os.environ.get(variable)
    path = given or f"{TOP}/crates/{name}/out/{name}"
    if not os.access(path, os.X_OK):
        if given:
            sys.exit(f"no program: {path}")
        subprocess.run([f"{TOP}/scripts/build", name], check=True)
    return path


def status_of(measure):
    """Calls `measure`, and returns the status: 0 if it returns True, and 1 if it returns False or a server failed.

    Prints the failure, and at the end the load of the machine.
    """
    try:
        return 0 if measure() else 1
    except (CheckFailed, subprocess.SubprocessError) as error:
        print(error)
        return 1
    finally:
        print(f"load of the machine: {' '.join(f'{it:.1f}' for it in os.getloadavg())}")
