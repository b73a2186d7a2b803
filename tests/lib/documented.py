"""What the documents say of flags, errors, reasons, and lines of the log."""
import re

from base import read, section


def documented_flags():
    """Returns of each flag in docs/CONFIGURE.md its argument or "", its default, its greatest value or "", and its text in lower case."""
    item = r"^- `--([a-z-]+)(?: ([A-Z]+))?` \((`[^`]+`|[^;:)]+)(?:[;:] ([^)]*))?\): (.*(?:\n  .*)*)"
    found = {}
    for name, argument, default, more, text in re.findall(item, section("docs/CONFIGURE.md", "Flags"), re.MULTILINE):
        plain = " ".join(re.sub(r"\[([^\]]*)\]\([^)]*\)", r"\1", text).replace("`", "").split())
        found[name] = (argument, default.strip("`"), more.rpartition("1 to ")[2] if "1 to " in more else "", plain.lower())
    return found


FLAGS = documented_flags()
# Flags with an argument, and those without one.
VALUES = [(name, argument) for name, (argument, _, _, _) in FLAGS.items() if argument]
SWITCHES = [name for name, (argument, _, _, _) in FLAGS.items() if not argument]
# The greatest value of each flag with a range, whose least value is 1. The flags for times, and those for addresses.
GREATEST = {name: int(greatest) for name, (_, _, greatest, _) in FLAGS.items() if greatest}
TIMES, ADDRESSES = ([name for name, argument in VALUES if argument == it] for it in ("TIME", "ADDRESS"))


def documented_reasons():
    """Returns the reasons for which docs/ERRORS.md says that requests are refused, except those of status 503."""
    rows = re.findall(r"^\| ([0-9, ]+) \| (.*?) \|", read("docs/ERRORS.md"), re.MULTILINE)
    return {reason for status, reasons in rows if status != "503" for reason in re.findall(r"`([^`]+)`", reasons)}


def documented_errors():
    """Returns the errors of docs/ERRORS.md."""
    return set(re.findall(r"^\| `(\d{3}::[^`]+)` \|", read("docs/ERRORS.md"), re.MULTILINE))


def documented_lines():
    """Returns the pairs of a level and an event that docs/MONITOR.md has for the log, with .. for the end of any event."""
    text = read("docs/MONITOR.md")
    found = set(re.findall(r"`\[(INFO|WARN|ERROR) +bayeuxd\] ([a-z ]+?|cannot \.\.)(?: \w+=[^`]*)?`", text))
    return found | {("INFO", f"{it} listening") for it in re.findall(r"`\.\. (\w+) listening \.\.`", text)}


def expect_documented(log):
    """Checks that docs/MONITOR.md has the level and the event of each line of `log`, a text without times."""
    lines = documented_lines()
    for level, event in re.findall(r"^\[(\w+) +bayeuxd\] ([^=\n]*?)(?= \w+=|$)", log.decode(), re.MULTILINE):
        assert (level, event) in lines or (level, f"{event.split()[0]} ..") in lines, "docs/MONITOR.md lacks this line of the log"
