"""The command `bayeux`."""
from __future__ import annotations

import argparse
import json
import logging
import os
import shlex
import shutil
import sys
import time
from collections.abc import Sequence
from typing import Any

from . import DEFAULT_URL, BayeuxError, Client, Unreachable, __version__


def parse_json(text: str) -> Any:
    """Returns the JSON value `text`. Raises `ValueError` with an explanation if it is not JSON."""
    try:
        return json.loads(text, parse_constant=int)  # `int` raises for NaN and Infinity, which are not JSON.
    except ValueError:
        raise ValueError(f"expected JSON, got {text}; to publish it as text, write {shlex.quote(json.dumps(text))}") from None


def parse_header(text: str) -> tuple[str, str]:
    name, colon, value = text.partition(":")
    if not colon or not name.strip():
        raise argparse.ArgumentTypeError(f"expected NAME: VALUE, got {text!r}")
    return name.strip(), value.strip()


def subscribe(client: Client, args: argparse.Namespace) -> None:
    """Prints each event in a line."""
    for count, (channel, data) in enumerate(client.listen(*args.pattern), 1):
        print(channel, json.dumps(data, ensure_ascii=False), flush=True)
        if count == args.count:
            return


def publish(client: Client, args: argparse.Namespace) -> None:
    """Publishes one value, or each line of standard input."""
    if args.data != "-":
        client.publish(args.channel, parse_json(args.data))
        return
    for line in sys.stdin:
        client.publish(args.channel, parse_json(line))


def watch(client: Client, args: argparse.Namespace) -> None:
    """Shows the newest event of each channel, and how many came, on a terminal."""
    newest: dict[str, tuple[int, str, Any]] = {}
    for channel, data in client.listen(*args.pattern):
        newest[channel] = newest.get(channel, (0,))[0] + 1, time.strftime("%H:%M:%S"), data
        columns, rows = shutil.get_terminal_size()
        lines = [f"{count:7} {moment} {name} {json.dumps(it, ensure_ascii=False)}" for name, (count, moment, it) in sorted(newest.items())]
        print("\x1b[H\x1b[J" + "\n".join(line[:columns] for line in lines[: rows - 1]), flush=True)


def parse_args(args: Sequence[str] | None) -> argparse.Namespace:
    epilog = f"BAYEUX_URL: the server's address, by default {DEFAULT_URL}. BAYEUX_NAME: the session's name."
    parser = argparse.ArgumentParser(prog="bayeux", description="Publish, and print events.", epilog=epilog)
    parser.add_argument("--version", action="version", version=__version__)
    parser.add_argument("--url", default=os.environ.get("BAYEUX_URL", DEFAULT_URL), help="the server's address, which may have a user and a password")
    parser.add_argument("--name", default=os.environ.get("BAYEUX_NAME") or None, help="the session's name, to find it in a record of the server")
    parser.add_argument("--header", action="append", default=[], type=parse_header, metavar="NAME: VALUE", help="a header field of each request")
    commands = parser.add_subparsers(required=True, metavar="COMMAND")

    def add(name: str, text: str, function: object, *aliases: str) -> argparse.ArgumentParser:
        command = commands.add_parser(name, aliases=aliases, help=text, description=f"{text[0].upper()}{text[1:]}.")
        command.set_defaults(run=function)
        return command

    subscribing = add("subscribe", "print each event in a line", subscribe, "listen")
    subscribing.add_argument("--count", type=int, help="end after COUNT events")
    for command in (subscribing, add("watch", "show the newest event of each channel on a terminal", watch)):
        command.add_argument("pattern", nargs="+", metavar="PATTERN", help="such as '/chat/*' or '/chat/**'")
    publishing = add("publish", "publish a value, or each line of standard input", publish)
    publishing.add_argument("channel", metavar="CHANNEL", help="such as /chat/hall")
    publishing.add_argument("data", metavar="JSON", help="such as 1 or '{\"text\": \"Hello\"}'. - reads a value from each line of standard input")
    return parser.parse_args(args)


def main(args: Sequence[str] | None = None) -> int:
    options = parse_args(args)
    logging.basicConfig(format="bayeux: %(message)s", level=logging.WARNING)
    try:
        with Client(options.url, name=options.name, headers=dict(options.header)) as client:
            options.run(client, options)
    except KeyboardInterrupt:
        # Ctrl-C is how a command that listens ends.
        return 0
    except BrokenPipeError:
        # What reads the output has ended. Python shall not report it again at its end.
        os.dup2(os.open(os.devnull, os.O_WRONLY), sys.stdout.fileno())
    except Unreachable as failure:
        print(f"bayeux: {options.url}: {failure}; set BAYEUX_URL to use another server", file=sys.stderr)
        return 1
    except (BayeuxError, OSError, ValueError) as failure:
        print(f"bayeux: {failure}", file=sys.stderr)
        return 1
    return 0


if __name__ == "__main__":
    sys.exit(main())
