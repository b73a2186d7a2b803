"""The Debian package's files, which are read without root and without a container."""
import os
import pathlib
import re
import shutil
import subprocess

import dist
import pytest
import repository
from base import TOP, make_program, read

# What the package leaves out. Documents may link there.
LEFT_OUT = ("crates", "tests", "scripts", "benches", "docs/internals", ".ci", "CONTRIBUTING.md", "examples/scripts")
LEFT_OUT += ("packaging/bayeux_replay.1", "packaging/bayeuxd.8")
DOCUMENTS = "usr/share/doc/gadzilk"


@pytest.fixture(scope="module")
def files(package, tmp_path_factory):
    """The folder with the package's files."""
    folder = tmp_path_factory.mktemp("files")
    subprocess.run(["dpkg-deb", "--extract", package, folder], check=True)
    return folder


def test_lintian_finds_no_error(package):
    if not shutil.which("lintian"):
        pytest.skip("there is no lintian (package lintian)")
    args = ["lintian", "--allow-root", "--fail-on", "error", "--suppress-tags", "bad-distribution-in-changes-file", package]
    result = subprocess.run(args, capture_output=True, text=True, check=False)
    assert result.returncode == 0, result.stdout


def test_same_files_result_in_the_same_packages(package, pack, tmp_path):
    again = pack(package.parent / "programs", tmp_path, umask=0o077, env={"PATH": "/usr/bin:/bin", "TMPDIR": str(tmp_path), "LANG": "C"})
    assert len(again.stdout.split()) == 4, again.stderr
    assert [it for it in map(pathlib.Path, again.stdout.split()) if it.read_bytes() != (package.parent / it.name).read_bytes()] == []


def test_program_of_another_version_is_not_packed(package, pack, tmp_path):
    for it in dist.PROGRAMS:
        make_program(tmp_path / it, "echo bayeuxd 0.0.1")
    result, version = pack(tmp_path, tmp_path), read("VERSION").strip()
    assert (result.returncode, result.stdout) == (1, ""), package
    assert result.stderr == f"scripts/package: VERSION says {version}, and bayeuxd --version bayeuxd 0.0.1\n"


def test_programs_are_stripped_as_for_the_release(files, program, tmp_path):
    copy = shutil.copy(program, tmp_path)
    subprocess.run([*dist.STRIP, copy], check=True)
    assert (files / "usr/bin/bayeuxd").read_bytes() == pathlib.Path(copy).read_bytes()


def test_pages_and_programs_need_no_documents(files):
    """Images of containers leave the documents out."""
    assert [it for it in (files / "usr/share/gadzilk").rglob("*") if it.is_symlink() or it.name in ("test", "tests")] == []


def test_manual_pages_name_installed_files(files):
    pages = "".join(it.read_text(encoding="utf-8") for it in (TOP / "packaging").glob("*.[18]"))
    named = set(re.findall(r"/usr/share/[\w./-]*\w", pages))
    assert len(named) > 5
    assert [it for it in named if not (files / it[1:]).exists()] == []


def test_copyright_names_each_crate_that_is_linked():
    kit, text = shutil.which("rt"), read("packaging/debian/copyright")
    own = repository.dependencies()
    linked = {it for name in repository.with_dependencies(dist.PROGRAMS) for it in own[name] if it not in own}
    # Crates of the toolchain depend on others of them.
    for folder in [pathlib.Path(kit).resolve().parent.parent / "rlibs"] if kit else []:
        edges = {it.parent.stem: re.findall(r"^dep (\w+)$", it.read_text(encoding="utf-8"), re.M) for it in folder.glob("*.rlib/format")}
        linked = {*repository.reachable(linked, edges)}
    assert [it for it in sorted({"std", *linked}) if f" rattle/{it}/*\n" not in text] == []


def test_documents_name_installed_files(files):
    """test_documents.py looks at the headings of links."""
    for page in [files / DOCUMENTS / "README.md", files / DOCUMENTS / "CHANGELOG.md", *(files / DOCUMENTS / "docs").glob("*.md")]:
        text = re.sub(r"^```.*?^```$", "", page.read_text(encoding="utf-8"), flags=re.M | re.S)
        for target in re.findall(r"\[[^\]]*\]\(([^):#\s]+)(?:#[^)]*)?\)", text):
            path = os.path.relpath(page.parent / target, files / DOCUMENTS)
            assert path.startswith(LEFT_OUT) or (files / DOCUMENTS / path).exists(), f"{page.name}: {target}"
