"""The rows of a text file, and the words in angle brackets that abbreviate longer texts."""
import os
import re
from collections import namedtuple

from base import TOP

# A run of the replay: its name, its arguments or `None` for the usual ones, its script, and its expected output.
Row = namedtuple("Row", "name arguments script expected")

MACRO = re.compile("<([^<>]*)>")
# The number of hexadecimal digits of a client id.
CLIENT = 48
# Words that repeat their last argument, and what is between two copies.
REPEATED = {"times": "", "list": ","}
# Words for characters that cannot be seen in a text file.
CHARACTERS = {"space": " ", "return": "\r", "zero": "\0", "newline": "\n"}


def read_macros():
    """Returns the number of arguments and the text of each word in tests/rows/words.txt and of those for characters, by name."""
    found = {it: (0, character) for it, character in CHARACTERS.items()}
    with open(f"{TOP}/tests/rows/words.txt", encoding="utf-8") as file:
        for line in file.read().splitlines():
            if line and not line.startswith("#"):
                head, _, text = line.partition(" = ")
                found[head.split()[0]] = (len(head.split()) - 1, text)
    return found


MACROS = read_macros()


def expand_match(match):
    """Returns the text for a word and its arguments, the last of which extends to the end. Raises `ValueError` if their number is wrong."""
    name, *rest = match[1].split(" ", 1)
    if name == "client":
        return rest[0].zfill(CLIENT)
    if name in REPEATED:
        number, repeated = rest[0].split(" ", 1)
        return REPEATED[name].join([repeated] * int(number))
    count, text = MACROS[name]
    arguments = rest[0].split(" ", count - 1) if rest else []
    if len(arguments) != count:
        raise ValueError(f"<{match[1]}> has not {count} arguments")
    for place, argument in enumerate(arguments, 1):
        text = text.replace(f"${place}", argument)
    return text


def expand_macros(text):
    """Returns `text` with all words replaced by their texts."""
    while MACRO.search(text):
        text = MACRO.sub(expand_match, text)
    return text


def row_of(name, lines):
    """Returns the row `name` from its lines, which begin with marks: `$` arguments, `>` script, and `<` expected output, in this order.

    Raises `ValueError` if the lines have another form.
    """
    parts = {"$": [], ">": [], "<": []}
    for line in lines:
        if line[1:2] not in ("", " "):
            raise ValueError(f"{name}: no space behind the mark: {line}")
        parts[line[0]].append(line[2:])
    if not parts[">"] or not parts["<"] or lines != sorted(lines, key=lambda it: "$><".index(it[0])):
        raise ValueError(f"{name}: not arguments, a script and what is printed, in this order")
    script, expected = ("".join(f"{expand_macros(it)}\n" for it in parts[mark]).encode() for mark in "><")
    return Row(name, parts["$"][0] if parts["$"] else None, script, expected)


def blocks_of(file, marks):
    """Yields the name and the lines of each block of a text file. Its lines begin with one of `marks`, and its name precedes them."""
    name, lines = None, []
    with open(file, encoding="utf-8", newline="\n") as text:
        for line in [*text.read().split("\n"), "the end"]:
            if line and line[0] in marks:
                lines.append(line)
            elif line and not line.startswith("#"):
                if name or lines:
                    yield name, lines
                name, lines = line, []


def rows_of(file):
    """Yields the rows of a text file."""
    for name, lines in blocks_of(file, "$><"):
        yield row_of(f"{os.path.basename(file)}: {name}", lines)
