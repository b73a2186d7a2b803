"""`./bayeux`: which program it runs, what its commands print, and which arguments they pass on. The crates and the toolchain are stubs."""
import os
import re
import time
from pathlib import Path

import pytest
from base import make_program
from tree import Tree

HOUR = 3600
# The manual page of each command's program (docs/README.md).
PAGES = {"serve": ["bayeuxd.8"], "replay": ["bayeux_replay.1", "bayeux_record.1"], "load": ["bayeux_load.1"]}


@pytest.fixture
def tree(tmp_path: Path) -> Tree:
    return Tree(tmp_path)


@pytest.fixture
def proved(tree: Tree) -> Tree:
    tree.prove()
    return tree


def test_notice_of_a_checked_build_appears_once_an_hour(tree: Tree) -> None:
    assert tree.bayeux("serve", "--version") == ("checked --version", True)
    assert tree.bayeux("serve", "--help") == ("checked --help", False)
    assert tree.bayeux("load", "1") == ("checked 1", True)
    then = time.time() - HOUR - 100
    os.utime(tree.top / "out/checked/bayeuxd.notice", (then, then))
    assert tree.bayeux("serve", "--help") == ("checked --help", True)


def test_release_runs_without_a_toolchain(tree: Tree) -> None:
    tree.release()
    assert tree.bayeux("replay", "1", path=tree.bare_path) == ("released 1", False)


def test_proved_program_comes_before_the_release(proved: Tree) -> None:
    proved.release()
    assert proved.bayeux("serve", "--help") == ("proved --help", False)
    assert proved.bayeux("serve", "--release", "--help") == ("released --help", False)


def test_programs_of_other_sources_run_only_with_release(proved: Tree) -> None:
    proved.release()
    proved.write("crates/bayeuxd/src/main.rt", "fn changed() {}\n")
    assert proved.bayeux("serve", "--release", "--help") == ("released --help", False)
    status, output, errors = proved.call("./bayeux", "serve", "--help")
    assert (status, output) == (0, "checked --help")
    assert "--release" in errors and "./bayeux prove bayeuxd" in errors
    assert proved.bayeux("load", "1") == ("proved 1", False)
    status, _, errors = proved.call("./bayeux", "serve", path=proved.bare_path)
    assert status == 1 and "--release" in errors


def test_damaged_or_missing_release_does_not_run(tree: Tree) -> None:
    assert tree.call("./bayeux", "serve", "--release")[0] == 1
    tree.release()
    tree.damage()
    assert tree.bayeux("serve", "--help")[0] == "checked --help"
    assert tree.call("./bayeux", "serve", "--release")[0] == 1


def test_help_lists_the_commands(tree: Tree) -> None:
    status, text, errors = tree.call("./bayeux", "help")
    assert (status, errors) == (0, "")
    assert text.startswith("usage: ./bayeux C")
    assert re.findall(r"^  ([a-z]+) ", text, re.MULTILINE) == ["serve", "replay", "replay", "load", "test", "prove", "help"]
    ways: list[list[str]] = [[], ["--help"], ["-h"]]
    for args in ways:
        assert tree.call("./bayeux", *args) == (0, text, "")


@pytest.mark.parametrize("args, name", [(["nothing"], "nothing"), (["--ride"], "--ride"), (["help", "nothing"], "nothing")])
def test_wrong_command_prints_the_help(args: list[str], name: str, tree: Tree) -> None:
    help_text = tree.call("./bayeux", "help")[1]
    assert tree.call("./bayeux", *args) == (2, "", f"bayeux: there is no command {name}\n{help_text}\n")


@pytest.mark.parametrize("args", [["prove"], ["prove", "bayeux_load"], ["serve", "--proved", "--ride"]], ids=" ".join)
def test_failed_proof_ends_the_command(args: list[str], tree: Tree) -> None:
    program = "bayeux_load" if "bayeux_load" in args else "bayeuxd"
    assert tree.call("./bayeux", *args)[:2] == (3, f"build {program}")


def test_load_may_open_as_many_files_as_the_system_allows(tree: Tree) -> None:
    tree.prove("#!/bin/sh\nulimit -n\n")
    status, text, _ = tree.call("sh", "-c", "ulimit -Hn; ulimit -Sn 64; exec ./bayeux load 1")
    most, found = text.split()
    assert (status, found) == (0, most)


@pytest.mark.parametrize("has_man", [True, False])
@pytest.mark.parametrize("command, pages", PAGES.items())
def test_help_of_a_program_is_its_manual_pages(command: str, pages: list[str], has_man: bool, tree: Tree) -> None:
    for it in pages:
        tree.write(f"packaging/{it}", f"the page {it}\n")
    make_program(tree.top / "../bin/man", f'{"echo man" if has_man else "exit 3 #"} "$@"')
    wanted = " ".join(["man -l", *pages]) if has_man else "\n".join(f"the page {it}" for it in pages)
    for args in (["help", command], [command, "--help"])[: 1 if command == "serve" else 2]:
        assert tree.call("./bayeux", *args) == (0, wanted, "")


# Commands, and what is run. TOP: the folder of the repository.
COMMANDS = [
    (["serve"], "proved --listen 127.0.0.1:8087"),
    (["serve", "--ride", "a b", "*"], "proved --ride a b *"),
    (["replay", "--record", "a b", "--check"], "TOP/crates/bayeux_replay/out/bayeux_replay --record a b --check"),
    (["test", "a b", "--proved", "*"], "test a b --proved *"),
    (["help", "test"], "test --help"),
]


@pytest.mark.parametrize("args, wanted", COMMANDS)
def test_command_passes_its_arguments_on(args: list[str], wanted: str, proved: Tree) -> None:
    assert proved.bayeux(*args) == (wanted.replace("TOP", str(proved.top)), False)
    assert proved.call("./bayeux", "help", "prove")[:2] == (3, "build --help")
