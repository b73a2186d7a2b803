"""Debian's linters find nothing. Their settings are in .flake8 and pyproject.toml. A linter that is missing is skipped with its package."""
import functools
import re
import shutil
import subprocess
from typing import Any

import pytest
from base import TOP, tracked

PYTHON = re.compile(r"#!.*\bpython3\b")
SHELL = re.compile(r"#!/(?:usr/bin/env |bin/)(?:ba|da)?sh\b")


@functools.cache
def files() -> dict[str, str]:
    """Returns the path and the first line of each text file that Git has or would add."""
    return {it: (TOP / it).read_bytes().partition(b"\n")[0].decode(errors="replace") for it in tracked()}


def expect_nothing(tool: str, package: str, *args: str) -> None:
    """Runs a linter, which must end with status 0."""
    if not shutil.which(tool):
        pytest.skip(f"there is no {tool} (package {package})")
    streams: dict[str, Any] = {"stdin": subprocess.DEVNULL, "stdout": subprocess.PIPE, "stderr": subprocess.STDOUT}
    result = subprocess.run([tool, *args], cwd=TOP, text=True, check=False, **streams)
    assert result.returncode == 0, f"\n{result.stdout}"


def test_flake8_finds_nothing() -> None:
    expect_nothing("flake8", "flake8", *(path for path, line in files().items() if path.endswith(".py") or PYTHON.match(line)))


@pytest.mark.timeout(900)
def test_mypy_finds_nothing() -> None:
    expect_nothing("mypy", "mypy")


def test_shellcheck_finds_nothing() -> None:
    scripts = [path for path, line in files().items() if path.endswith((".sh", ".bash")) or SHELL.match(line)]
    expect_nothing("shellcheck", "shellcheck", "--severity=warning", "--exclude=SC1090,SC1091", *scripts)


@pytest.mark.parametrize("path", [it for it in files() if it.endswith((".js", ".mjs", ".cjs"))])
def test_node_can_parse(path: str) -> None:
    expect_nothing("node", "nodejs", "--check", path)
