"""Builds the wheel of this folder: pip calls it (pyproject.toml), and needs nothing else. The same sources give the same bytes.

usage: python3 build_wheel.py [FOLDER]     (writes the wheel to FOLDER, and prints its name; `pip wheel .` does the same)
"""
from __future__ import annotations

import base64
import hashlib
import pathlib
import re
import sys
import tomllib
import zipfile
from typing import Any

HERE = pathlib.Path(__file__).resolve().parent
SOURCES = HERE / "src"


def build_wheel(folder: str, _settings: Any = None, _metadata: Any = None) -> str:
    """Writes the wheel to `folder`, and returns its name (PEP 517)."""
    project = tomllib.loads((HERE / "pyproject.toml").read_text(encoding="utf-8"))["project"]
    name = project["name"].replace("-", "_")
    [version] = re.findall(r'^__version__ = "(.+)"$', (SOURCES / name / "__init__.py").read_text(encoding="utf-8"), re.M)
    metadata = ["Metadata-Version: 2.1", f"Name: {project['name']}", f"Version: {version}", f"Summary: {project['description']}"]
    metadata += [f"Requires-Python: {project['requires-python']}", *(f"Classifier: {it}" for it in project["classifiers"])]
    metadata += ["Description-Content-Type: text/markdown", "", (HERE / project["readme"]).read_text(encoding="utf-8")]
    sources = sorted(it for it in (SOURCES / name).rglob("*") if it.suffix in (".py", ".typed"))
    files = {str(it.relative_to(SOURCES)): it.read_bytes() for it in sources}
    texts = {
        "METADATA": "\n".join(metadata),
        "WHEEL": "Wheel-Version: 1.0\nGenerator: build_wheel\nRoot-Is-Purelib: true\nTag: py3-none-any\n",
        "entry_points.txt": "".join(["[console_scripts]\n", *(f"{it} = {call}\n" for it, call in project["scripts"].items())]),
    }
    infos = f"{name}-{version}.dist-info"
    files |= {f"{infos}/{it}": text.encode() for it, text in texts.items()}
    rows = [f"{it},sha256={digest_of(content)},{len(content)}\n" for it, content in files.items()]
    files[f"{infos}/RECORD"] = "".join([*rows, f"{infos}/RECORD,,\n"]).encode()
    wheel = f"{name}-{version}-py3-none-any.whl"
    with zipfile.ZipFile(pathlib.Path(folder) / wheel, "w") as archive:
        for path, content in files.items():
            # The moment of a `ZipInfo` is always the same, and its mode that of a file that all may read.
            info = zipfile.ZipInfo(path)
            info.external_attr = 0o644 << 16
            archive.writestr(info, content)
    return wheel


def digest_of(content: bytes) -> str:
    return base64.urlsafe_b64encode(hashlib.sha256(content).digest()).rstrip(b"=").decode()


if __name__ == "__main__":
    print(build_wheel(sys.argv[1] if len(sys.argv) > 1 else "."))
