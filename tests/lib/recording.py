"""Records of a bayeuxd, and checks of the answers in them by scripts/replay_record."""
from __future__ import annotations

import os
import re
import signal
import subprocess
from pathlib import Path

from base import TOP
from records import Reader, Source, answer_of, is_request

REPLAY_RECORD = f"{TOP}/scripts/replay_record"


class Check:
    """A run of scripts/replay_record that checks the answers in the record `path`. `replay`: the program that replays."""

    def __init__(self, replay: str, path: str | Path, *flags: str) -> None:
        args = [REPLAY_RECORD, "--record", str(path), "--check", *flags]
        environment = {**os.environ, "REPLAY": replay}
        self.process = subprocess.Popen(args, bufsize=0, stdout=subprocess.PIPE, stderr=subprocess.STDOUT, env=environment)

    def __enter__(self) -> Check:
        return self

    def __exit__(self, *_) -> None:
        self.process.kill()
        self.process.wait()

    def end(self) -> int:
        """Waits for the end, and returns how many answers were compared. None may be wrong."""
        output = self.process.communicate()[0].decode()
        compared = re.search("^answers compared: ([0-9]+), wrong: 0,", output, re.M)
        assert self.process.returncode == 0 and compared, output
        return int(compared[1])

    def interrupt(self) -> int:
        """Ends a check that follows, and returns how many answers were compared, as `end` does."""
        assert self.process.stdout and self.process.stdout.readline().startswith(b"following ")
        self.process.send_signal(signal.SIGTERM)
        return self.end()


def read_record(path: str | Path) -> tuple[list[tuple[int, bytes]], dict[int, bytes], int]:
    """Returns the place and the line of each request in a record, the digests of answers by place, and the place at the end."""
    source, reader, requests, digests = Source(str(path)), Reader(), [], {}
    source.begin()
    for _, text in source.lines():
        line, _ = reader.read(text)
        answer = answer_of(text)
        if is_request(line):
            requests.append((line.place, text))
        if answer:
            digests[answer[0]] = answer[1]
    return requests, digests, reader.place
