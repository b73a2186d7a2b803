"""Each planted edit, a wrong body, can still be made, and names a test that exists. To try them, run tests/planted/run."""
import subprocess

from base import TOP


def test_edits_can_be_made() -> None:
    result = subprocess.run([f"{TOP}/tests/planted/run", "--check"], stdout=subprocess.PIPE, stderr=subprocess.STDOUT, text=True, check=False)
    assert result.returncode == 0, result.stdout
