"""A program runs once for each of its allocations, and that one fails: it prints the same, or ends in its preparation.

The program is `bx_refusals`, whose parts use all crates below the daemon.
"""
import os
import subprocess
from pathlib import Path

import pytest
from base import TOP, compile_library, has_compiler

PROGRAM = f"{TOP}/crates/bx_refusals/out/bx_refusals"
PARTS = ("plans", "shard", "rounds", "world", "hub", "window", "service", "pieces")
# Each test of a part refuses each allocation that is SHARES after another one. So several processors share a part.
SHARES = 4
# The greatest number of allocations that are refused, and how long a run may take, in seconds.
MAX_CALLS, SECONDS = 100_000, 60


@pytest.fixture(scope="module")
def program(pytestconfig: pytest.Config, skip) -> str:
    """The path of bx_refusals, which the prover has built. Skips the test without it."""
    if pytestconfig.getoption("--program") != "proved":
        pytest.skip("runs with --program proved")
    if not os.access(PROGRAM, os.X_OK):
        skip("refusals", f"there is no program {PROGRAM}")
    if not has_compiler():
        skip("refusals", "there is no C compiler")
    return PROGRAM


@pytest.fixture(scope="module")
def refusing_library(program: str, tmp_path_factory: pytest.TempPathFactory) -> str:
    return compile_library("tests/refusals/refuse.c", tmp_path_factory.mktemp("refuse"))


@pytest.mark.timeout(1800)
@pytest.mark.parametrize("first", range(1, SHARES + 1))
@pytest.mark.parametrize("part", PARTS)
def test_refused_allocation_changes_nothing(part: str, first: int, program: str, refusing_library: str, tmp_path: Path) -> None:
    def run(call: int) -> tuple[int, bytes, bool]:
        """Refuses allocation number `call`. Returns the status, the output, and whether the program made this allocation."""
        met = tmp_path / f"met{call}"
        env = {"LD_PRELOAD": refusing_library, "REFUSE": str(call), "REFUSE_MET": str(met)}
        args = [program, part]
        result = subprocess.run(args, env=env, stdin=subprocess.DEVNULL, capture_output=True, timeout=SECONDS, check=False)
        return result.returncode, result.stdout, met.exists()

    status, whole, _ = run(0)
    assert status == 0
    for call in range(first, MAX_CALLS, SHARES):
        status, output, is_met = run(call)
        if not is_met:
            assert call > first, "no allocation was refused"
            return
        has_ended_in_preparation = status == 1 and output != whole and whole.startswith(output)
        assert (status, output) == (0, whole) or has_ended_in_preparation, f"allocation {call} of {part}: {status}, {output!r}"
    pytest.fail(f"{part} makes more than {MAX_CALLS} allocations")
