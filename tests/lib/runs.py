"""Runs of a bayeuxd that ends by itself, and the lines that it prints."""
import re
import subprocess

from base import TIMEOUT_SECONDS

ANYWHERE = ["--listen", "127.0.0.1:0"]
# The time at the start of a line in a log of text.
LOG_TIME = r"[0-9]{4}-[0-9]{2}-[0-9]{2}T[0-9]{2}:[0-9]{2}:[0-9]{2}\.[0-9]{3}Z"
CANNOT_LISTEN = "bayeuxd: cannot listen"


def run(program, args, **how):
    """Runs a daemon. Returns its status, its output, and standard error. `how`: more keyword arguments of `subprocess.run`."""
    streams = {"stdin": subprocess.DEVNULL, "stdout": subprocess.PIPE, "stderr": subprocess.PIPE, **how}
    result = subprocess.run([program, *args], check=False, text=True, timeout=TIMEOUT_SECONDS, **streams)
    return result.returncode, result.stdout, result.stderr


def without_times(lines):
    """Returns `lines` of a log without their times. A line without a time stays."""
    return [re.sub(rf"^{LOG_TIME} ", "", line) for line in lines]


def faults(errors):
    """Returns the lines of standard error that are no information, without times."""
    return [it for it in without_times(errors.splitlines()) if not it.startswith("[INFO  ")]


def match(found, wanted):
    """Returns whether each of the lines `found` matches its pattern in `wanted`."""
    return len(found) == len(wanted) and all(re.fullmatch(pattern, line) for pattern, line in zip(wanted, found))


def cannot(what, name):
    """Returns patterns of the two lines of a daemon that cannot do `what` at `name`, an address or a file."""
    return [rf"\[ERROR bayeuxd\] {what} at={re.escape(name)} error=.+", rf"bayeuxd: {what} at {re.escape(name)}: .+"]


def no_place(address):
    """Returns patterns of the two lines of a daemon that cannot listen at `address`."""
    return [rf'\[ERROR bayeuxd\] cannot listen address={re.escape(address)} error=".+"', CANNOT_LISTEN]
