"""The release in dist/: its packages, as they are installed, and whether its programs are those that this machine proved and built."""
import fnmatch
import os
import re
import shutil
import subprocess
import tarfile
from pathlib import Path
from typing import Any

import dist
import pytest
import repository
from base import TOP, read
from bayeuxd import Bayeuxd
from daemon import check_serves, get
from metrics import ask_for

NO_TOOLCHAIN = "the toolchain's command rt is not on the path, so that no programs of this machine can be compared"
VERSION = read("VERSION").strip()
ARCHIVE = f"gadzilk-{VERSION}-x86_64-linux"
NPM, WHEEL = f"gadzilk-client-{VERSION}.tgz", f"gadzilk_client-{VERSION}-py3-none-any.whl"
FILES = {f"gadzilk_{VERSION}_amd64.deb", f"{ARCHIVE}.tar.gz", NPM, WHEEL, dist.SOURCES, dist.CHECKSUMS}
# The greatest size of all files together, since each clone has them.
MOST_BYTES = 3_000_000


class CannotCompare(Exception):
    """A program cannot be compared. The message says why."""


def other_toolchains(release: dist.Release) -> str:
    """Returns the toolchains that built the release, other than the one on the path, or ""."""
    return ", ".join(sorted({it for _, it in release.sources.values()} - {repository.kit_id(repository.toolchain())}))


def built_here(name: str, is_proved: bool, folder: Path) -> bytes:
    """Returns the content, after `strip`, of a program that `rt ci` left if `is_proved`, or scripts/build built from the current sources."""
    path = Path(repository.TOP, "crates", name, "out", name)
    checksum = repository.Checksums(repository.toolchain()).checksum(name)
    if not (path.is_file() if is_proved else repository.is_up_to_date(path, checksum)):
        raise CannotCompare(f"{name} was not proved and built here")
    copy = Path(shutil.copy(path, folder))
    subprocess.run([*dist.STRIP, copy], check=True, stdin=subprocess.DEVNULL)
    return copy.read_bytes()


def expect_same_programs(release: dist.Release, is_proved: bool, folder: Path) -> None:
    """Checks that each program of the release is, byte for byte, the one that was built here."""
    if not shutil.which(dist.STRIP[0]):
        raise CannotCompare(f"{dist.STRIP[0]} is not installed")
    for name in dist.PROGRAMS:
        here, there = built_here(name, is_proved, folder), release.program(name)
        if here != there:
            at = len(os.path.commonprefix([here, there]))
            pytest.fail(f"{name} differs, first at byte {at} ({len(there)} bytes, and {len(here)} here)")


def run(*args: Any, **how: Any) -> str:
    """Runs a command, which must end with status 0, and returns its output."""
    result = subprocess.run(args, capture_output=True, text=True, check=False, **how)
    assert result.returncode == 0, result.stderr
    return result.stdout


@pytest.fixture
def release() -> dist.Release:
    """The release. Skips the test if it was built from other sources."""
    if not os.path.exists(dist.FOLDER):
        pytest.skip("there is no release in dist/")
    found = dist.Release()
    others = [it for it in dist.PROGRAMS if not found.is_current(it)]
    if others:
        pytest.skip(f"dist/ was built from other sources of {', '.join(others)}")
    return found


def test_files_of_the_release_have_their_checksums(release: dist.Release) -> None:
    assert {*os.listdir(dist.FOLDER)} == {*release.checksums, dist.CHECKSUMS} == FILES
    assert run("sha256sum", "--check", "--quiet", dist.CHECKSUMS, cwd=dist.FOLDER) == ""
    assert sum(it.stat().st_size for it in Path(dist.FOLDER).iterdir()) <= MOST_BYTES


def test_programs_of_the_release_are_those_built_here(release: dist.Release, pytestconfig: pytest.Config, skip, tmp_path: Path) -> None:
    if not shutil.which("rt"):
        skip("release", NO_TOOLCHAIN)
    if other_toolchains(release):
        pytest.skip(f"{release.archive} was built by {other_toolchains(release)}")
    try:
        expect_same_programs(release, pytestconfig.getoption("--program") == "proved", tmp_path)
    except CannotCompare as error:
        skip("release", f"{release.archive} is not compared: {error}")


def test_pages_name_the_files_and_the_glibc_of_the_release(release: dist.Release) -> None:
    if not shutil.which("objdump"):
        pytest.skip("there is no objdump (package binutils)")
    symbols = "".join(run("objdump", "-T", release.extract(it)) for it in dist.PROGRAMS)
    newest = max((tuple(map(int, it.split("."))) for it in re.findall(r"\(GLIBC_([\d.]+)\)", symbols)))
    for page in ("README.md", "docs/README.md", "packaging/install.sh"):
        assert re.findall(r"glibc\s+([\d.]+)\s+or\s+later", read(page)) == [".".join(map(str, newest))], page


def test_archive_is_installed_serves_and_is_removed(release: dist.Release, tmp_path: Path) -> None:
    run("tar", "-xzf", f"{dist.FOLDER}/{release.archive}", "-C", tmp_path)
    prefix, own = tmp_path / "prefix", tmp_path / "prefix/bin/own"
    own.parent.mkdir(parents=True)
    own.touch()
    # The second installation replaces the first.
    for _ in range(2):
        assert f"Installed bayeuxd {VERSION} in {prefix}." in run(tmp_path / ARCHIVE / "install.sh", prefix, umask=0o077)
    shutil.rmtree(tmp_path / ARCHIVE)
    assert f"\nExecStart={prefix}/bin/bayeuxd-run " in (prefix / "lib/systemd/system/bayeuxd.service").read_text(encoding="utf-8")
    paths = {"env": {"PATH": f"{prefix}/bin:/usr/bin:/bin"}}
    assert run("sh", "-c", "bayeux_replay 2 2 30000 0 10000; bayeux_record --help", input="0 P []\n", **paths).startswith("1 200 []\nusage: ")
    flags = ("--listen", "127.0.0.1:0", "--metrics", "127.0.0.1:0")
    with Bayeuxd(prefix / "bin/bayeuxd-run", tmp_path / "log", *flags, is_plain=True, **paths) as server:
        server.wait()
        check_serves(server.address, "/installed")
        assert b"<title>" in ask_for(server.metrics, get(b"", b"/")).body
    run(prefix / "share/gadzilk/install.sh", "--uninstall", prefix)
    assert [*prefix.rglob("*")] == [own.parent, own]


@pytest.fixture
def packed(tmp_path: Path) -> Path:
    """A folder with the packages of the clients, which have the same bytes wherever they are made."""
    pytest.importorskip("tomllib")
    run(f"{TOP}/scripts/package", tmp_path / "packed", umask=0o077, env={"PATH": os.environ["PATH"], "LANG": "C", "TZ": "Asia/Tokyo"})
    return tmp_path / "packed"


def test_release_has_the_current_clients(release: dist.Release, packed: Path) -> None:
    assert [it for it in (NPM, WHEEL) if (packed / it).read_bytes() != Path(dist.FOLDER, it).read_bytes()] == [], "run scripts/release again"


def content(archive: Path) -> dict[str, bytes]:
    """Returns the content of each file of a tar archive, by its path."""
    with tarfile.open(archive) as it:
        return {member.name: it.extractfile(member).read() for member in it if member.isfile()}  # type: ignore[union-attr]


def test_npm_packs_the_same_files(packed: Path, tmp_path: Path) -> None:
    if not shutil.which("npm"):
        pytest.skip("there is no npm")
    run("npm", "pack", f"{TOP}/examples/client", "--offline", "--cache", tmp_path / "cache", cwd=tmp_path)
    assert content(tmp_path / NPM) == content(packed / NPM)


def test_pages_name_the_files_of_this_version() -> None:
    assert re.findall(r"^## (.*) \(\d{4}-\d\d-\d\d\)$", read("CHANGELOG.md"), re.MULTILINE)[0] == VERSION
    pages = "".join(read(it) for it in ("README.md", *(f"docs/{it.name}" for it in TOP.glob("docs/*.md"))))
    named = set(re.findall(r"\bgadzilk[-_][\w.*-]+\.(?:deb|tar\.gz|tgz|whl)\b", pages))
    assert FILES - {it for pattern in named for it in fnmatch.filter(FILES, pattern)} == {dist.SOURCES, dist.CHECKSUMS}
    assert [it for it in named if not fnmatch.filter(FILES, it)] == []
