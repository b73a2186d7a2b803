"""Programs to which a preloaded library shows other clocks, errors of calls, or another number of processors."""
import pathlib
import struct
import threading

from base import wait_until
from daemon import with_sanitizer_options

# The seconds between two ticks of the daemon.
TICK = 0.1


class Clock:
    """The clocks of a program, which a test puts forward.

    All clocks go on as usual. If `is_standing`, the monotonic clock moves only when it is put forward, and the others are
    not changed. If `has_ticks` too, the daemon's ticks happen only in `tick`. `variables`: what `preloading` needs for a
    program with these clocks.
    """

    def __init__(self, folder, is_standing=False, has_ticks=False):
        """Makes the clocks. `folder`: a folder for the file that the library reads."""
        self.path, self.milliseconds, self.lock = f"{folder}/clock", 0, threading.RLock()
        with open(self.path, "wb") as file:
            file.write(bytes(24))
        self.variables = {"CLOCK_FILE": self.path, **({"CLOCK_STANDS": "1"} if is_standing or has_ticks else {})}
        if has_ticks:
            self.variables["CLOCK_SLEEPS"] = "1"

    @property
    def seconds(self):
        """By how many seconds the clocks were put forward."""
        return self.milliseconds / 1000

    def add(self, seconds):
        """Puts the clocks forward by `seconds`, rounded to milliseconds."""
        with self.lock, open(self.path, "r+b") as file:
            self.milliseconds += round(seconds * 1000)
            file.write(struct.pack("<q", self.milliseconds))

    def begun(self):
        """Returns how many sleeps of a tick or longer have begun."""
        return struct.unpack_from("<q", pathlib.Path(self.path).read_bytes(), 8)[0]

    def looks(self):
        """Returns how many waits for events have begun. The program looks at the clock after each."""
        return struct.unpack_from("<q", pathlib.Path(self.path).read_bytes(), 16)[0]

    def await_looks(self, count):
        """Waits until the program has waited for events `count` more times, so that it has most probably looked at the clock."""
        before = self.looks()
        wait_until("the program waits for events", lambda: self.looks() >= before + count, pause=0.002)

    def tick(self, count=1):
        """Puts the clocks forward by `count` ticks, and waits after each until the program waits for the next one."""
        with self.lock:
            wait_until("the daemon waits for a tick", self.begun, pause=0.001)
            for _ in range(count):
                begun = self.begun()
                self.add(TICK)
                wait_until("a tick has ended", lambda begun=begun: self.begun() > begun, pause=0.0005)


def preloading(library, **variables):
    """Returns an environment in which programs load `library`, the compiled system.c, with `variables`, which it describes."""
    # AddressSanitizer otherwise wants to be the first of the program's libraries.
    return {**with_sanitizer_options("verify_asan_link_order=0"), "LD_PRELOAD": library, **variables}
