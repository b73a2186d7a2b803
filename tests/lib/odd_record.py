"""Runs scripts/replay_record with a file that cannot be read to its end, or with a clock that a test puts forward.

usage: odd_record.py torn BYTES NAME ARGUMENTS
       odd_record.py clock FILE ARGUMENTS

The record can be read up to BYTES bytes. Then reading raises the built-in exception NAME. If BYTES is below 0, the record cannot
be opened. FILE has the seconds by which the clock is ahead. ARGUMENTS are those of scripts/replay_record.
"""
import builtins
import errno
import io
import os
import pathlib
import runpy
import sys
import threading  # noqa: F401 (keeps the clock as it was)
import time

SCRIPTS = pathlib.Path(__file__).resolve().parents[2] / "scripts"
sys.dont_write_bytecode = True
sys.path.insert(0, str(SCRIPTS))
import records  # noqa: E402


def opening(most, error):
    """Returns a function that opens files of which `most` bytes can be read before `error` is raised."""

    class Torn(io.FileIO):
        def read(self, size=-1):
            if self.tell() >= most:
                raise error
            return super().read(min(most - self.tell(), size))

    def open_torn(path, *_, **__):
        if most < 0:
            raise error
        return Torn(path)

    return open_torn


kind, value, *rest = sys.argv[1:]
if kind == "torn":
    name, *rest = rest
    setattr(records, "open", opening(int(value), getattr(builtins, name)(errno.EIO, os.strerror(errno.EIO))))
else:
    clock, file = time.monotonic, pathlib.Path(value)
    time.monotonic = lambda: clock() + float(file.read_text(encoding="ascii"))
sys.argv = [str(SCRIPTS / "replay_record"), *rest]
runpy.run_path(sys.argv[0], run_name="__main__")
