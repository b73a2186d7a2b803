"""The Debian package of the programs under test and of the repository's files, and containers in which it is installed."""
import os
import pathlib
import shutil
import subprocess

import pytest
from base import TOP
from machine import Machine


def pytest_collection_modifyitems(items):
    """Lets one process run the tests of this folder, since one makes the package, and one container runs at a time on a machine.

    A container may take minutes, and its first one loads all of Debian.
    """
    for it in items:
        if it.path.parent == pathlib.Path(__file__).parent:
            it.add_marker(pytest.mark.xdist_group("package"))
            it.add_marker(pytest.mark.timeout(7200))


@pytest.fixture(scope="session")
def pack():
    """Makes the packages of three programs: `pack(folder, out)` returns the result of scripts/package, which prints their paths."""
    command, text = [f"{TOP}/scripts/package", "--programs"], {"capture_output": True, "text": True, "check": False}
    return lambda folder, out, **how: subprocess.run([*command, folder, out], **text, **how)


@pytest.fixture(scope="session")
def package(pack, program, replay_program, load_program, is_checked, tmp_path_factory):
    """The path of the Debian package. The others are next to it, and the programs in the folder `programs`."""
    if is_checked:
        pytest.skip("a checked build needs libraries that no package has")
    if not shutil.which("dh"):
        pytest.skip("there is no dh (package debhelper)")
    folder = tmp_path_factory.mktemp("package")
    (folder / "programs").mkdir()
    for it in (program, replay_program, load_program):
        shutil.copy(it, folder / "programs" / os.path.basename(it))
    result = pack(folder / "programs", folder)
    assert result.returncode == 0, result.stderr
    return next(pathlib.Path(it) for it in result.stdout.split() if it.endswith(".deb"))


@pytest.fixture
def machine(package, tmp_path):
    """A container that has the package at /root/gadzilk.deb, and in which it is not installed."""
    machine = Machine(tmp_path)
    shutil.copy(package, machine.root / "root/gadzilk.deb")
    yield machine
    machine.end()


@pytest.fixture
def installed(machine):
    """A container in which the package is installed."""
    assert "see: man gadzilk-setup" in machine.run("dpkg -i gadzilk.deb")
    return machine
