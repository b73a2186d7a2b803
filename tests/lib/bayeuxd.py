"""The daemon of a test: a process whose log is a file that is kept if the test fails."""
import contextlib
import functools
import re
import subprocess

import metrics
from base import TIMEOUT_SECONDS, end, readable, wait_until
from daemon import Daemon


class Bayeuxd(Daemon):
    """A bayeuxd whose standard error is the file `path`. The fixture `daemon` starts and ends it.

    Unless `is_plain`, it gets more than `flags`: addresses of loopback for clients and for metrics, an end with its standard
    input or after the number of connections in `flags`, and times so long that no hold and no session expires during a test.
    What `flags` have is left out. `before`: the command line before `program`. `streams`: keyword arguments of `Popen`.
    `status`: the status with which it must end.
    """

    USUAL = {"--listen": "127.0.0.1:0", "--metrics": "127.0.0.1:0", "--max-interval": "600s", "--timeout": "600s"}

    def __init__(self, program, path, *flags, is_plain=False, before=(), **streams):
        # pylint: disable=super-init-not-called
        given = {it.partition("=")[0] for it in flags}
        more = [] if is_plain else [word for pair in self.USUAL.items() if pair[0] not in given for word in pair]
        more += [] if is_plain or {"--connections", "--until-eof"} & given else ["--until-eof"]
        self.path, self.errors = path, open(path, "w+b")  # pylint: disable=consider-using-with
        streams = {"stdin": subprocess.PIPE, "stdout": subprocess.PIPE, "stderr": self.errors, **streams}
        self.process = subprocess.Popen([*before, program, *more, *flags], start_new_session=True, **streams)
        self.status = 0

    def wait(self):
        """Waits until the daemon listens and all its threads have started, and reads its address."""
        assert readable(self.process.stdout, seconds=TIMEOUT_SECONDS), "the daemon does not listen"
        super().wait()
        self.wait_for_rest()

    @functools.cached_property
    def metrics(self):
        """The address of the metrics listener."""
        return self.logged_address("metrics listening address=")

    @functools.cached_property
    def readers(self):
        """The address of the readers' listener, once the log has it."""
        wait_until("the log has the address of readers", lambda: b"readers listening address=" in self.full_log())
        return self.logged_address("readers listening address=")

    def scrape(self):
        """Returns the values of the page of metrics, by name and labels."""
        return metrics.scrape(self.metrics)

    def expect(self, expected, **how):
        """Waits until the metrics have the values `expected`, and returns all values. `how`: as for `metrics.expect_values`."""
        return metrics.expect_values(self.metrics, expected, **how)

    def close(self):
        """Closes the daemon's standard input. It must then end with status 0."""
        self.process.stdin.close()
        self.expect_end()

    def let_end(self, clock):
        """Puts `clock` forward until the process has ended, and checks its end."""

        def has_ended():
            clock.add(1)
            return self.process.poll() is not None

        wait_until("the daemon ends", has_ended, pause=0.005)
        self.expect_end()

    def logged(self, level="[A-Z]+"):
        """Returns the texts of the log's lines with this level, without times. `level`: a regular expression."""
        return re.findall(rf"^\[(?:{level}) +bayeuxd\] (.*)$", self.full_log().decode(), re.MULTILINE)

    def kill(self):
        """Kills the process, as if the machine had failed. It has then not ended by itself."""
        self.process.kill()
        self.status = self.process.wait()

    def end(self):
        """Ends the process. Returns its status if it had ended by itself, and not with the right one, otherwise 0."""
        status = 0 if self.process.poll() in (None, self.status) else self.process.returncode
        end(self.process)
        for it in (self.process.stdin, self.process.stdout):
            if it:
                with contextlib.suppress(BrokenPipeError):
                    it.close()
        return status
