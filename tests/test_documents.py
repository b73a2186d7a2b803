"""The pages and manual pages: what they name exists, and what they say of flags, limits and settings is what the sources have.

Of one page: `./bayeux test documents -k OPERATING`.
"""
import functools
import json
import os
import re
import shlex
import shutil
import subprocess
from collections.abc import Iterator
from pathlib import Path

import pytest
import repository
from base import TOP, read, section, tracked
from documented import FLAGS

pytestmark = pytest.mark.xdist_group("documents")

LINK = re.compile(r"\[[^\]]*\]\(([^)\s]+)\)")
CODE = re.compile(r"`([^`\n]+)`")
CRATE = re.compile(r"(?:bx|bayeux)_[a-z_]+")
PATH = re.compile(
    r"(?:\./|\.\./)*(?:benches|crates|docs|examples|packaging|scripts|tests|\.ci)/[\w./-]+|bx_\w+/(?:src|specs|proofs)/[\w./-]+"
)
ITEM = re.compile(r"([A-Z]\w+)::(\w+)")
WORD = re.compile(r"[A-Za-z]+(?:_[A-Za-z0-9]+)+")
FLAG = re.compile(r"--[a-z][a-z-]+")
COUNT = re.compile(r"([\d,]+) (must-fail edits|planted edits|crates)\b")
# Words of the toolchain's crates and of nginx.
FOREIGN = {
    *("crossbeam_utils", "atomic_table", "default_server", "ip_hash", "large_client_header_buffers"),
    *("limit_conn", "limit_req", "log_format", "proxy_read_timeout"),
}
# Where flags are defined.
PROGRAMS = re.compile(r"packaging/|scripts/|tests/|benches/|examples/|bayeux$|conftest\.py$|\.ci/|crates/\w+/src/")
# Settings of the unit that no test runs. With braces around BAYEUXD_OPTIONS, all flags would be one argument, and without AF_UNIX,
# bayeuxd-run could not report that bayeuxd listens.
UNIT = {
    "ExecStart": "/usr/bin/bayeuxd-run --listen ${BAYEUXD_LISTEN} $BAYEUXD_OPTIONS",
    "EnvironmentFile": "-/etc/default/%N",
    **{"Type": "notify", "NotifyAccess": "all", "RestrictAddressFamilies": "AF_INET AF_INET6 AF_UNIX"},
    **{"Restart": "always", "RestartSec": "1", "RestartPreventExitStatus": "2", "StartLimitIntervalSec": "60", "StartLimitBurst": "10"},
    **{"DynamicUser": "yes", "LimitCORE": "0", "WantedBy": "multi-user.target"},
}
# The greatest exposure that systemd-analyze of Debian 12 may report of the unit, in tenths.
EXPOSURE = 12
# The greatest width of a comment, and of the first sentence of a doc comment.
WIDTH = 100
DOC_COMMENT = re.compile(r"((?:^ *///.*\n)+)(?: *#\[.*\n)* *(?:pub(?:\([a-z]+\))? )?(?:unsafe )?(?:const )?fn ", re.MULTILINE)
SENTENCE_END = re.compile(r"(?<=[.!?])\s+(?=[A-Z`*\[])")


def sources() -> list[Path]:
    """Returns the Rattle files of the crates."""
    return sorted(TOP.glob("crates/*/src/**/*.rt"))


def without_blocks(text: str) -> str:
    """Returns a page without its fenced and indented blocks."""
    text = re.sub(r"^```.*?^```$", "", text, flags=re.MULTILINE | re.DOTALL)
    return re.sub(r"^(?: {4}|\t).*$", "", text, flags=re.MULTILINE)


@functools.cache
def anchors(path: Path) -> set[str]:
    """Returns what the headings of a page are linked by."""
    text = re.sub(r"^```.*?^```$", "", path.read_text(encoding="utf-8"), flags=re.MULTILINE | re.DOTALL)
    titles = [re.sub(r"\[([^\]]*)\]\([^)]*\)", r"\1", it).lower() for it in re.findall(r"^#+ +(.*)$", text, re.MULTILINE)]
    return {re.sub(r"[^\w\- ]", "", it).replace(" ", "-") for it in titles}


@functools.cache
def known_items() -> dict[str, set[str]]:
    """Returns, of each type of the crates, the names in the crates that define it."""
    found: dict[str, set[str]] = {}
    for name in repository.libraries():
        text = "\n".join(it.read_text(encoding="utf-8") for it in TOP.glob(f"crates/{name}/src/**/*.rt"))
        for kind in re.findall(r"\b(?:struct|enum|trait|type)\s+([A-Z]\w+)", text):
            found.setdefault(kind, set()).update(re.findall(r"\w+", text))
    return found


@functools.cache
def known_metrics() -> set[str]:
    """Returns the names of the metrics."""
    return {name for it in TOP.glob("crates/bx_metrics/src/*.rt") for name in re.findall(r'"(bayeux_\w+)"', it.read_text(encoding="utf-8"))}


@functools.cache
def known_flags() -> set[str]:
    """Returns the flags that manual pages, programs and scripts know."""
    paths = [it for it in tracked() if PROGRAMS.match(it) and not it.endswith((".md", ".png"))]
    return {flag for it in paths for flag in FLAG.findall((TOP / it).read_text(encoding="utf-8", errors="replace").replace("\\-", "-"))}


@functools.cache
def known_words() -> set[str]:
    """Returns the words of all files that are no pages, and of the paths of all files."""
    found = set(FOREIGN)
    for path in tracked():
        found.update(WORD.findall(path))
        if not path.startswith("dist/") and not path.endswith((".md", ".png", ".csv", ".ico")):
            found.update(re.findall(r"\w+", read(path)))
    return found


def wrong_names(code: str) -> Iterator[str]:
    """Yields what does not exist of that which `code`, a text in backquotes, names."""
    is_known = code in repository.libraries() or code in known_metrics() or (TOP / f"packaging/{code}.1").exists()
    if CRATE.fullmatch(code) and not is_known:
        yield f"crate {code}"
    if PATH.fullmatch(code) and not re.search(r"[A-Z]{4}|/out/", code):
        if not any((TOP / it / code).exists() for it in ("", "crates", "crates/bayeuxd")):
            yield f"path {code}"
    if WORD.fullmatch(code) and code not in known_words():
        yield f"word {code}"
    for kind, item in ITEM.findall(code):
        if item not in known_items().get(kind, {item}):
            yield f"item {kind}::{item}"
    for flag in FLAG.findall(code) if code.startswith("-") else ():
        if flag not in known_flags():
            yield f"flag {flag}"


PAGES = [it for it in tracked() if it.endswith(".md")]


@pytest.mark.parametrize("page", PAGES)
def test_links_lead_to_a_file_and_a_heading(page: str) -> None:
    for target in LINK.findall(without_blocks(read(page))):
        path, _, anchor = target.partition("#")
        if not re.match(r"[a-z]+:", target):
            whole = (TOP / page).parent / path if path else TOP / page
            assert whole.exists(), target
            assert not anchor or whole.suffix != ".md" or anchor in anchors(whole), target


@pytest.mark.parametrize("page", PAGES)
def test_names_in_backquotes_exist(page: str) -> None:
    assert [it for code in CODE.findall(without_blocks(read(page))) for it in wrong_names(code)] == []


@pytest.mark.parametrize("page", PAGES)
def test_numbers_of_edits_and_crates(page: str) -> None:
    counts = {
        "crates": len(repository.libraries()),
        "must-fail edits": sum("/must-fail/" in it for it in tracked()),
        "planted edits": sum(len(re.findall(r"^name: ", it.read_text(encoding="utf-8"), re.MULTILINE)) for it in TOP.glob("tests/planted/*.edits")),
    }
    found = [(what, int(number.replace(",", ""))) for number, what in COUNT.findall(without_blocks(read(page)))]
    assert found == [(what, counts[what]) for what, _ in found]


def test_readme_of_tests_has_each_section_and_its_tests() -> None:
    rows = dict(re.findall(r"^\| ([A-Z]+, [^|]+) \| ([^|]+) \|$", read("tests/README.md"), re.MULTILINE))
    pages = {it.partition(",")[0] for it in rows} | {"PROTOCOL", "OPERATING"}
    assert {*rows} == {f"{it}, {title}" for it in pages for title in re.findall("^## (.*)$", read(f"docs/{it}.md"), re.MULTILINE)}
    for row, tests in rows.items():
        assert tests.startswith("none: ") or CODE.findall(tests), row
        assert [it for it in CODE.findall(tests) if not (TOP / "tests" / it).exists()] == [], row


def test_architecture_names_each_crate_once() -> None:
    _, _, items = section("docs/internals/ARCHITECTURE.md", "The crates").partition("\n- ")
    assert sorted(re.findall(r"`(\w+)`", items)) == sorted(repository.libraries())


def test_monitor_has_each_metric() -> None:
    """The help of each is on the page of metrics."""
    assert known_metrics() - set(re.findall(r"bayeux_\w+", read("docs/MONITOR.md"))) == set()


@pytest.mark.parametrize("path", [it for it in tracked() if it.startswith("benches/") and os.access(TOP / it, os.X_OK)])
def test_each_benchmark_has_a_help(path: str) -> None:
    result = subprocess.run([TOP / path, "--help"], capture_output=True, check=False, stdin=subprocess.DEVNULL, text=True)
    assert (result.returncode, result.stderr) == (0, "") and path in result.stdout


def manual_entry(name: str) -> str:
    """Returns what the manual page of `bayeuxd` says of a flag, as plain text on one line. Tests of the daemon check CONFIGURE."""
    options = read("packaging/bayeuxd.8").partition("\n.SH OPTIONS\n")[2].replace("\\-", "-")
    return re.sub(r"\n(?:\.[BI]+R?I? )?", " ", options).partition(f" --{name} ")[2].partition(" .TP ")[0]


@pytest.mark.parametrize("name", FLAGS)
def test_manual_page_has_the_default_and_the_range_of_configure(name: str) -> None:
    argument, default, greatest, _ = FLAGS[name]
    entry = manual_entry(name)
    assert entry
    assert f"from 1 to {greatest}" in entry or not greatest
    default = {"one per processor": "one shard per processor", "a random seed": "system generates a random seed"}.get(default, default)
    ways = (f"The default is {default}", f"The default, {default},", f"{default} (the default)", f"By default, the {default}")
    assert not argument or default in ("off", "none") or any(way in entry for way in ways), entry


@pytest.mark.parametrize("page", sorted(it.name for it in (TOP / "packaging").glob("*.[18]")))
def test_manual_page_has_no_placeholder(page: str) -> None:
    assert re.findall(r"@[A-Z]+@", read(f"packaging/{page}")) == []


@pytest.mark.parametrize("page, script", [("bayeux_record.1", "scripts/replay_record"), ("gadzilk-setup.8", "packaging/gadzilk-setup")])
def test_manual_page_has_the_options_of_the_help(page: str, script: str) -> None:
    text = subprocess.run([TOP / script, "--help"], check=True, stdout=subprocess.PIPE, text=True).stdout
    titles = re.findall(r"^\.TP\n(.*)", read(f"packaging/{page}").replace("\\-", "-"), re.MULTILINE)
    assert {*FLAG.findall(" ".join(titles))} == {*FLAG.findall(text)} != set()


def completions() -> Iterator[tuple[list[str], set[str]]]:
    """Yields the words of command lines, and what bash must complete for the last one."""
    commands = set(re.findall(r"^  (\w+) ", read("bayeux").partition("<<'TEXT'")[2].partition("\nTEXT")[0], re.MULTILINE))
    of_daemon = {f"--{it}" for it in [*FLAGS, "help", "version"]}
    choices, of_replay = {"--proved", "--release"}, {f"--{it}" for it in ("record", "bytes", "sessions", "patterns")}
    of_record = {f"--{it}" for it in ("record", "client", "check", "follow", "idle", "help")}
    of_files = re.findall(r"^- `(--[a-z-]+) FILE`", read("docs/CONFIGURE.md"), re.MULTILINE)
    assert len(of_files) >= 2
    yield from (([*words, flag, "VERS"], {"VERSION"}) for flag in of_files for words in (["bayeuxd"], ["./bayeux", "serve"]))
    yield from (([name, "--record", "VERS"], {"VERSION"}) for name in ("bayeuxd-run", "bayeux_replay", "bayeux_record"))
    yield ["bayeuxd", "--"], of_daemon
    yield ["bayeuxd-run", "--"], of_daemon
    yield ["./bayeux", "serve", "--"], {*of_daemon, *choices}
    yield ["./bayeux", "replay", "--"], {*of_replay, *of_record, *choices}
    yield ["./bayeux", "load", ""], choices
    yield ["./bayeux", "test", "--"], {"--proved"}
    yield ["./bayeux", "help", ""], commands - {"help"}
    yield ["./bayeux", "prove", ""], {"bayeuxd", "bayeux_replay", "bayeux_load"}
    yield ["bayeux_replay", "--"], of_replay
    yield ["bayeux_record", "--"], of_record
    yield ["./bayeux", ""], commands
    yield ["./bayeux", "test", "bx_h"], {it for it in repository.libraries() if it.startswith("bx_h")}
    yield ["./bayeux", "test", "doc"], {"documents"}


@pytest.mark.parametrize("words, wanted", completions(), ids=lambda it: " ".join(it) if isinstance(it, list) else "")
def test_bash_completes(words: list[str], wanted: set[str]) -> None:
    script = '. "$0"; COMP_WORDS=("$@") COMP_CWORD=$(($# - 1)); _bayeux "$1" "${@: -1}" "${@: -2:1}"; printf "%s\\n" "${COMPREPLY[@]}"'
    args = ["bash", "-c", script, f"{TOP}/packaging/completion.bash", *words]
    assert set(subprocess.run(args, check=True, stdout=subprocess.PIPE, text=True, cwd=TOP).stdout.split()) == wanted


def documented_options() -> str:
    """Returns the flags with which OPERATING says that the unit starts `bayeuxd`."""
    found = re.search(r"`BAYEUXD_OPTIONS` \(by default\s+`([^`]+)`\)", section("docs/OPERATING.md", "systemd"))
    assert found
    return found[1]


def test_default_settings_are_those_of_operating() -> None:
    """The file for settings only has comments, with the values of the unit."""
    wanted = {"BAYEUXD_LISTEN": "127.0.0.1:8087", "BAYEUXD_OPTIONS": documented_options()}
    assert dict(it.partition("=")[::2] for value in unit_settings()["Environment"] for it in shlex.split(value)) == wanted
    text = read("packaging/bayeuxd.default")
    assert shlex.split(text, comments=True) == []
    assert dict(it.partition("=")[::2] for it in shlex.split(text.replace("\n#BAYEUXD_", "\nBAYEUXD_"), comments=True)) == wanted
    pages = "".join(read(f"docs/{it}.md").replace('", "', " ") for it in ("OPERATING", "SECURITY"))
    assert {*re.findall(r"--body \d+(?: --(?!listen)[a-z]+ \d+)*", pages)} == {documented_options()}


def test_image_starts_with_the_flags_of_operating() -> None:
    lines = dict(re.findall(r"^(ENTRYPOINT|CMD|USER|EXPOSE) (.*)$", read("packaging/Dockerfile"), re.MULTILINE))
    assert json.loads(lines["CMD"]) == documented_options().split()
    assert json.loads(lines["ENTRYPOINT"]) == ["/usr/bin/bayeuxd-run", "--listen", f"0.0.0.0:{lines['EXPOSE']}"]
    assert (lines["USER"], lines["EXPOSE"]) == ("nobody:nogroup", "8087")


def unit_settings() -> dict[str, list[str]]:
    """Returns the values of each setting of the unit."""
    found: dict[str, list[str]] = {}
    for name, value in re.findall(r"^(\w+)=(.*)$", read("packaging/bayeuxd.service"), re.MULTILINE):
        found.setdefault(name, []).append(value)
    return found


def test_unit_has_the_settings_of_operating() -> None:
    wanted = {**UNIT, **dict(re.findall(r"`([A-Z]\w+)=(\w+)`", section("docs/OPERATING.md", "systemd")))}
    settings = unit_settings()
    assert {it: settings.get(it) for it in wanted} == {it: [value] for it, value in wanted.items()}


def test_unit_is_confined() -> None:
    analyze = shutil.which("systemd-analyze")
    if not analyze or b"systemd 252 " not in subprocess.run([analyze, "--version"], capture_output=True, check=False).stdout:
        pytest.skip("there is no systemd-analyze of Debian 12 (package systemd)")
    args = [analyze, "security", "--offline=true", "--no-pager", f"--threshold={EXPOSURE}", f"{TOP}/packaging/bayeuxd.service"]
    result = subprocess.run(args, capture_output=True, text=True, check=False)
    assert result.returncode == 0, (result.stdout + result.stderr).strip().splitlines()[-1]


def examples(path: Path) -> Iterator[str]:
    """Yields the examples in the comments of a Rattle file."""
    marked = re.findall(r"(?m)^ *//[/!]? ?(.*)$", path.read_text(encoding="utf-8"))
    for example in re.findall(r"(?ms)^```\w*\n(.*?)^```", "\n".join(marked)):
        yield squeezed([example])


def squeezed(lines: list[str]) -> str:
    """Returns the words of `lines`, one space apart."""
    return " ".join(" ".join(lines).split())


def test_comments_are_narrow() -> None:
    files = [*((it, "//") for it in sources()), *((it, "--") for it in TOP.glob("crates/*/*/**/*.antt") if not {"must-fail", "out"} & {*it.parts})]
    wide = [
        f"{path.relative_to(TOP)}:{number}"
        for path, mark in files
        for number, line in enumerate(path.read_text(encoding="utf-8").split("\n"), 1)
        if len(line) > WIDTH and line.strip().startswith(mark)
    ]
    assert wide == []


def test_first_sentences_of_doc_comments_are_short() -> None:
    found = []
    for path in sources():
        for head in DOC_COMMENT.finditer(path.read_text(encoding="utf-8")):
            first = re.sub(r"(?m)^ */// ?", "", head[1]).partition("\n\n")[0]
            found.append((str(path.relative_to(TOP)), SENTENCE_END.split(squeezed([first]))[0]))
    assert len(found) > 500
    assert [(path, it) for path, it in found if len(it) > WIDTH] == []


def test_examples_in_comments_are_run() -> None:
    """A file with tests, or a program that the gate runs, has the lines of each example."""
    tests = [
        squeezed(text.split("\n"))
        for it in sources()
        if "#[test]" in (text := it.read_text(encoding="utf-8")) or (TOP / "crates" / it.relative_to(TOP).parts[1] / "stdout").exists()
    ]
    found = [(path, it) for path in sources() for it in examples(path)]
    assert found
    assert [(str(path.relative_to(TOP)), it) for path, it in found if not any(it in text for text in tests)] == []
