"""Checks of the sources of products: large numbers are named constants, and faults come only from calls that failed.

Most wrong bodies that no other test refuses do something wrong from a size on that no test reaches, such as a report of a lack of
memory for more than 8,192 events. These checks refuse such a size, and such a report.
"""
import re
from collections.abc import Iterator
from typing import NamedTuple

import pytest

import repository
from base import TOP

# One process reads the sources.
pytestmark = pytest.mark.xdist_group("source")

# Crates of tests and measurements.
NO_PRODUCTS = re.compile(r".*_tests|bx_(refusals|http_runs|calls|gates|bench)")
OF_TESTS = re.compile(r"/(\w+_)?tests(\.rt$|/)")

# Numbers up to this one, and shifts by fewer bits, need no name.
SMALL, BITS = 64, 6
# Numbers above `SMALL` that are no named constants: what they are, and which files have them.
NUMBERS = (
    ("surrogates of UTF-16, and hexadecimal digits", {"bx_cut/src/string.rt": "0x10000 0xd800 0xdc00 0xe000 1024 256 4096"}),
    ("characters of ASCII", {"bx_names/src/fault.rt": "0x7F", "bx_registry/src/id.rt": "87", "bx_record/src/nonce.rt": "87"}),
    ("statuses of HTTP", {"bx_message/src/status.rt": "200 400 403 404 405 413 415 501 503"}),
    (
        "units of times and sizes",
        {"bx_settings/src/flags.rt": "1024", "bx_settings/src/unit.rt": "1000 1024 1_048_576", "bx_metrics/src/page.rt": "100 1000"},
    ),
    ("the greatest port", {"bx_settings/src/flags.rt": "u16::MAX"}),
    ("the greatest values of limits", {"bx_advice/src/limit.rt": "1024 4_294_967_295 65_536"}),
    ("the seconds for a whole body, which a clause states", {"bx_serve/src/timeouts.rt": "300"}),
    ("the bits of half a nonce", {"bayeuxd/src/clock.rt": "<<64"}),
    ("the first room of a text, which grows", {"bx_record/src/config.rt": "128"}),
)

# Faults that a contract allows without need: words for a lack of memory, and variants of enums `..Fault` or `Next`.
LACKS = ("AllocError", "AllocFailed", "Memory", "OutOfMemory", "Unanswered")
VARIANTS = ("Closed", "Paused", "Behind", "Overrun", "WrongShard", "Full", "Ended")
# The faults that are made although no call failed: why this is right, and which files have them under which conditions.
FAULTS = (
    (
        "a sum that has no 64 bits, which needs more memory than there is",
        {
            "bx_pieces/src/pieces.rt": ("None=>",),
            "bx_pieces/src/tail.rt": ("None=>", "let Some(sum)=with_byte(total,size)else"),
            "bx_tree/src/arrivals.rt": ("Some((last,_))=>",),
        },
    ),
    (
        "a call that failed, and returns an option, a bool or a number",
        {
            "bx_fanout/src/level.rt": ("if world.bring_up(rt,alloc,gate,workers)>0",),
            "bx_window/src/reader.rt": ("let Some(guard)=handle.enter()else", "let Some(published)=&kept.published else", "None=>"),
            "bx_window/src/showing.rt": ("if show(handle,nothing).is_some()",),
            "bx_window/src/writer.rt": ("let Some(book)=opened.begun::<L>()else", "if!catch_up(&mut self.handle,&mut self.late)"),
        },
    ),
    ("a flag that was read", {"bx_hub/src/admission.rt": ("if self.closed",)}),
    (
        "a limit, and the place of a reader, which clauses state",
        {
            "bx_record/src/waiting.rt": ("if bytes.len()>MAX_WAITING_BYTES-self.bytes.len()",),
            "bx_window/src/reader.rt": ("if place<seen.begin()",),
            "bx_window/src/writer.rt": ("if self.tell().steps()>=MAX_STEPS", "if self.firsts.len()>=MAX_BATCHES"),
        },
    ),
    ("what another call reported", {"bx_hub/src/shard_state.rt": ("Ok(Next::Overrun)=>",), "bx_service/src/probe.rt": ("fn give_up",)}),
    ("evidence, which a clause requires", {"bx_hub/src/shard_state/evidence.rt": ("fn misplaced", "fn no_answer")}),
    ("a row for each fault", {"bx_metrics/src/metric.rt": ("",)}),
    ("the end of a connection", {"bayeux_load/src/link.rt": ("Ok(0)=>",)}),
)

# What is not read: comments and texts; and clauses, ghost code and modules of tests, whose lines after the first are indented more.
TEXT = re.compile(r"""//[^\n]*|\bb?r(#*)".*?"\1|"(?:\\.|[^"\\])*"|'(?:\\u\{\w+\}|\\.[\da-fA-F]*|[^'\\])'""", re.DOTALL)
CLAUSE = r"(?:(?:pub(?:\(crate\))? )?ghost|requires|ensures|invariant|decreases|#\[cfg\(test\)\]\n *mod)\b"
UNREAD = re.compile(rf"^( *){CLAUSE}.*(?:\n*\n\1[ }}].*)*", re.MULTILINE)
# A constant, and a number with those that it is added to, multiplied with or shifted by.
CONSTANT = re.compile(r"^ *(?:pub(?:\(\w+\))? )?const (\w+): .*?;$", re.MULTILINE | re.DOTALL)
NUMBER = re.compile(r"((?:<<|>>)=? )?(?<!\w)(?<![^.]\.)(\d\w*)((?: (?:\+|\*|<<) \d\w*)*(?:\.pow)?)|\b[iu](?:8|16|32)::MAX")
# Calls that leak memory.
LEAK = re.compile(r"\b(?:ManuallyDrop|leak|into_raw|mem::(?:\{[^}]*)?\bforget)\b")
# The signs and faults of expressions. Paths through a fault, types with one, and comparisons are none.
FAULT = rf"(?<![=!]= )(?<![\w:])(?:\w+::)*(?:{'|'.join(LACKS)}|(?:\w*Fault|Next)::(?:{'|'.join(VARIANTS)}))\b(?!::|>)"
SIGN = re.compile(rf"[(\[{{}}\])]|[;,]|=>|{FAULT}")
# The heads of types and of patterns.
DECLARATION = re.compile(r"\b(?:use|impl|fn|struct|enum|type)\b|\b(?:let|const)\b[^=]*$")


@pytest.fixture(scope="module", name="products")
def read_products() -> dict[str, str]:
    """What is read of each source of a product, in its lines, by the source's path from `crates/` on."""
    crates = [it for it in repository.dependencies() if not NO_PRODUCTS.fullmatch(it)]
    paths = [str(it.relative_to(TOP / "crates")) for crate in crates for it in TOP.glob(f"crates/{crate}/src/**/*.rt")]
    found = {it: (TOP / "crates" / it).read_text(encoding="utf-8") for it in sorted(paths) if not OF_TESTS.search(it)}
    for unread in (TEXT, UNREAD):
        found = {path: unread.sub(lambda it: "\n" * it[0].count("\n"), text) for path, text in found.items()}
    return found


def rows(table: tuple) -> set[tuple[str, str]]:
    """Returns the pairs of a file and what it may have of `NUMBERS` or `FAULTS`."""
    return {(path, it) for _, files in table for path, found in files.items() for it in (found.split() if isinstance(found, str) else found)}


def brief(text: str) -> str:
    """Returns `text` with spaces only between words."""
    return re.sub(r"(?<!\w) | (?!\w)", "", " ".join(text.split()))


def place(path: str, text: str, at: int) -> str:
    """Returns the path and the number of the line with the index `at`."""
    return f"crates/{path}:{text.count(chr(10), 0, at) + 1}"


def large_numbers(text: str) -> Iterator[tuple[int, str]]:
    """Yields each large number, and each that is made of others, with the index where it begins."""
    for it in NUMBER.finditer(text):
        shift, number, others = it.groups()
        value = int(re.sub(r"[iu](?:\d+|size)$|_", "", number), 0) if number else 0
        if not number or others or value > SMALL or shift and value >= BITS:
            yield it.start(), brief(it[0] if not shift or value >= BITS else number + others)


class Block(NamedTuple):
    """What is between two brackets, or an arm of a match. `why`: the condition under which it runs. `is_failed`: a call failed then."""

    why: str = ""
    is_failed: bool = False
    # "code", "types", "match" or "arm".
    kind: str = "code"


def has_failed(pattern: str) -> bool:
    """Returns `True` if only results of calls that failed, and flags that are set, have this pattern."""
    words = set(re.findall(r"\w+", pattern))
    return not words & {"Ok", "Some"} and bool(words & {"Err", *LACKS, *VARIANTS})


def block_after(head: str, outer: Block) -> Block:
    """Returns the block in braces that follows `head`."""
    if re.search(r"\b(?:use|struct|enum)\b", head):
        return Block(kind="types")
    if re.search(r"\bmatch\b", head):
        return outer._replace(kind="match")
    if name := re.search(r"\bfn (\w+)", head):
        return Block(f"fn {name[1]}", outer.is_failed)
    if re.search(r"\bimpl\b", head):
        return Block("", re.search(r"\bimpl(?:<.*>)? From<", head) is not None)
    if refuted := re.search(r"\blet\b([^=]*)=.*\belse\s*$", head, re.DOTALL):
        return Block(brief(refuted[0]), outer.is_failed or "Ok" in refuted[1] and "Some" not in refuted[1])
    if head.split()[-1:] == ["else"]:
        return Block("else", outer.is_failed)
    if branch := re.search(r".*\b((?:if|while)\b(?:\s+let\b([^=]*))?.*)", head, re.DOTALL):
        is_error = branch[1].rstrip().endswith(".is_err()") and not re.search(r"\|\||&&", branch[1])
        return Block(brief(branch[1]), outer.is_failed or (has_failed(branch[2]) if branch[2] else is_error))
    return outer._replace(kind="code")


def faults_made(text: str) -> Iterator[tuple[int, str, str]]:
    """Yields each fault that is made although no call failed: its index, its name, and the condition under which it is made."""
    block, begin = Block(), 0
    # The blocks around `block`, and where the heads of their next ones begin.
    outside: list[tuple[Block, int]] = []
    for it in SIGN.finditer(text):
        sign, head = it[0], text[begin : it.start()]
        is_type = block.kind in ("types", "match") or DECLARATION.search(head) is not None
        if sign in ("(", "[") or sign == "{" and block.kind == "match":
            outside.append((block, begin))
            block = Block(block.why, block.is_failed or head.endswith("map_err"), "types" if is_type else "code")
            begin = it.end()
        elif sign == "{":
            outside.append((block, begin))
            block, begin = block_after(head, block), it.end()
        elif sign == "=>" and block.kind == "match":
            outside.append((block, begin))
            block, begin = Block(f"{brief(head)}=>", block.is_failed or has_failed(head), "arm"), it.end()
        elif sign in (")", "]", "}", ","):
            if block.kind == "arm":
                block, begin = outside.pop()
            if sign == ",":
                begin = it.end() if block.kind == "match" else begin
                continue
            block, begin = outside.pop()
            if sign == "}" and block.kind != "match":
                # A block in braces may be a whole arm.
                if block.kind == "arm" and text[begin : it.start()].lstrip().startswith("{"):
                    block, begin = outside.pop()
                begin = it.end()
        elif sign == ";":
            begin = it.end()
        elif sign != "=>" and not block.is_failed and not is_type:
            yield it.start(), sign.rpartition("::")[2], block.why


def has_comment(path: str, name: str) -> bool:
    """Returns `True` if a comment is above the constant `name` of a file."""
    text = (TOP / "crates" / path).read_text(encoding="utf-8")
    return re.search(rf"^ *//.*\n(?: *#\[.*\n)*.*\bconst {name}: ", text, re.MULTILINE) is not None


def test_large_numbers_are_named_constants(products):
    unused, wrong = rows(NUMBERS), set()
    for path, text in products.items():
        constants = list(CONSTANT.finditer(text))
        for at, number in large_numbers(text):
            unused.discard((path, number))
            constant = next((it[1] for it in constants if it.start() < at < it.end()), "")
            if constant and not has_comment(path, constant):
                wrong.add(f"crates/{path}: {constant}: add a comment that says why it has this value")
            elif not constant and (path, number) not in rows(NUMBERS):
                wrong.add(f"{place(path, text, at)}: {number}: make it a constant, with a comment that says why it has this value")
    assert not wrong, "\n".join(sorted(wrong))
    assert not unused, "the table has rows that are not needed"


def test_faults_come_from_calls_that_failed(products):
    unused, wrong = rows(FAULTS), []
    for path, text in products.items():
        for at, fault, condition in faults_made(text):
            unused.discard((path, condition))
            if (path, condition) not in rows(FAULTS):
                wrong.append(f"{place(path, text, at)}: {fault} after `{condition}`: return the error of a call that failed, or add a row to FAULTS")
    assert not wrong, "\n".join(wrong)
    assert not unused, "the table has rows that are not needed"


def test_nothing_leaks(products):
    assert [(path, it[0]) for path, text in products.items() for it in LEAK.finditer(text)] == []
