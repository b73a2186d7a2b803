"""The tests of the crates in Rattle, as checked builds. A crate that passed with the same sources and toolchain is not run again.

With --program proved, as in the gate, they are skipped: `rt ci` runs them as proved builds.
"""
import fcntl
import pathlib
import shutil
import subprocess
import time

import pytest

import repository

# The memory in GB that a compile is likely to need, and the seconds between two looks at it.
MEMORY, PAUSE = 2.0, 1.0
NAMES = sorted(filter(repository.has_tests, repository.libraries()), key=repository.total_lines, reverse=True)
PASSED = pathlib.Path(repository.TOP, "out/passed")

pytestmark = [
    pytest.mark.crates,
    pytest.mark.timeout(1800),
    pytest.mark.skipif(not shutil.which("rt"), reason="the toolchain's command rt is not on the path (README.md)"),
]


@pytest.fixture(scope="session")
def checksums():
    """The checksums of the sources of crates and of the toolchain. Skips the tests if that has another version."""
    try:
        return repository.Checksums(repository.toolchain())
    except SystemExit as error:
        pytest.skip(str(error))


def wait_for_memory():
    """Waits until there is memory for another compile. One process at a time decides."""
    PASSED.mkdir(parents=True, exist_ok=True)
    with open(PASSED / ".turn", "wb") as turn:
        fcntl.flock(turn, fcntl.LOCK_EX)
        while repository.free_memory() < MEMORY:
            time.sleep(PAUSE)


@pytest.mark.parametrize("name", NAMES)
def test_crate(name, checksums, pytestconfig, record_property):
    if pytestconfig.getoption("--program") == "proved":
        pytest.skip("`rt ci` runs the proved tests of crates")
    marker, checksum = PASSED / name, checksums.checksum(name)
    if marker.is_file() and marker.read_text(encoding="ascii") == checksum and not pytestconfig.getoption("--again"):
        record_property("passed_before", name)
        return
    wait_for_memory()
    args = [f"{repository.TOP}/scripts/checked", "--test", name]
    streams = {"stdin": subprocess.DEVNULL, "stdout": subprocess.PIPE, "stderr": subprocess.STDOUT}
    result = subprocess.run(args, text=True, errors="replace", check=False, **streams)
    assert result.returncode == 0, result.stdout
    marker.write_text(checksum, encoding="ascii")
