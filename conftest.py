"""What the tests share: the programs under test, daemons, their clock, clients, nginx, and what is shown of a test that failed."""
import contextlib
import fcntl
import functools
import os
import shutil
import signal
import subprocess
import sys
import time

import pytest

sys.dont_write_bytecode = True
# A shell lets its background commands ignore SIGINT, and programs under test would inherit that.
signal.signal(signal.SIGINT, signal.default_int_handler)
# A test may take `timeout` seconds (pyproject.toml), so that it must not wait longer than that for one event.
os.environ.setdefault("GADZILK_PATIENCE", "60")
# AddressSanitizer otherwise keeps freed memory aside.
os.environ.setdefault("ASAN_OPTIONS", "quarantine_size_mb=1")
pytest.register_assert_rewrite("base", "daemon", "bayeuxd", "metrics", "system", "rules")

# pylint: disable=wrong-import-position
import base  # noqa: E402
import nginx as nginx_server  # noqa: E402
from bayeuxd import Bayeuxd  # noqa: E402
from daemon import Connection, has_sanitizer  # noqa: E402
from node_tests import NodeFile  # noqa: E402
from system import Clock, preloading  # noqa: E402

# How many lines at the end of a daemon's log are shown if a test fails.
SHOWN_LINES = 60
DAEMONS = pytest.StashKey[list[Bayeuxd]]()
STARTED = pytest.StashKey[float]()


def pytest_addoption(parser):
    group = parser.getgroup("gadzilk")
    choices = "release, proved, checked, or the path of a bayeuxd"
    group.addoption("--program", metavar="KIND", help=f"test this program: {choices} (default: the one that `./bayeux serve` runs)")
    group.addoption("--full", action="store_true", help="with a checked build, also run what takes it minutes")
    group.addoption("--again", action="store_true", help="also run tests of crates that passed before with the same sources")
    # Without pytest-timeout, its setting is known and has no effect.
    with contextlib.suppress(ValueError):
        parser.addini("timeout", "the seconds that a test may take (pytest-timeout)")


def pytest_configure(config):
    config.stash[STARTED] = time.time()
    kind = config.getoption("--program")
    if kind and kind not in ("release", "checked"):
        find_program(kind, "bayeuxd")
    config.addinivalue_line("markers", "timeout(seconds): how long the test may take (pytest-timeout)")
    config.addinivalue_line("markers", "xdist_group(name): tests that one process runs (pytest-xdist)")


def find_program(kind, name):
    """Returns the path of program `name`. `kind`: the value of --program, or `None`. Raises `UsageError` if there is none."""
    if kind and "/" in kind:
        path = kind if name == "bayeuxd" else f"{os.path.dirname(kind)}/{name}"
        if os.access(path, os.X_OK):
            return path
        if path == kind:
            raise pytest.UsageError(f"no program: {path}")
        # Only the bayeuxd is another one.
        kind = None
    if kind == "proved":
        path = f"{base.TOP}/crates/{name}/out/{name}"
        if not os.access(path, os.X_OK):
            raise pytest.UsageError(f"no program: {path}; ./bayeux prove {name} makes it")
        return path
    commands = {None: ["scripts/program"], "release": ["scripts/program", "--release"], "checked": ["scripts/checked"]}
    if kind not in commands:
        raise pytest.UsageError(f"--program: expected release, proved, checked or a path, got {kind}")
    result = subprocess.run([*commands[kind], name], cwd=base.TOP, stdout=subprocess.PIPE, text=True, check=False)
    if result.returncode:
        raise pytest.UsageError(f"--program: there is no program {name}")
    return result.stdout.strip()


@functools.lru_cache(maxsize=None)
def program_path(config, name):
    """Returns the path of program `name` that --program chooses. One process of the run finds it, and compiles it if necessary."""
    run = os.environ.get("PYTEST_XDIST_TESTRUNUID", str(os.getpid()))
    with open(out(config) / f"tests.{name}", "a+", encoding="utf-8") as file:
        fcntl.flock(file, fcntl.LOCK_EX)
        file.seek(0)
        found_by, _, path = file.read().partition(" ")
        if found_by != run:
            path = find_program(config.getoption("--program"), name)
            file.truncate(0)
            file.write(f"{run} {path}")
    return path


def out(config):
    """Returns the folder for files that Git ignores."""
    folder = config.rootpath / "out"
    folder.mkdir(exist_ok=True)
    return folder


def pytest_collect_file(parent, file_path):
    """Collects the tests that node runs."""
    if not file_path.name.endswith(".test.mjs"):
        return None
    return NodeFile.from_parent(parent, path=file_path, find_program=lambda: program_path(parent.config, "bayeuxd"))


def pytest_collection_modifyitems(items):
    """Puts the tests of crates, which take longest, at the start, and tests that run alone at the end."""
    items.sort(key=lambda it: (it.get_closest_marker("alone") is not None, it.get_closest_marker("crates") is None))


@pytest.hookimpl(hookwrapper=True, tryfirst=True)
def pytest_runtest_protocol(item):
    """Lets no test run during one with the mark `alone`. The time for which a test waits here does not count."""
    is_alone, folder = item.get_closest_marker("alone") is not None, out(item.config)
    with open(folder / "tests.turn", "wb") as turn, open(folder / "tests.running", "wb") as running:
        # Who waits for all others keeps `turn`, so that no further test begins.
        fcntl.flock(turn, fcntl.LOCK_EX)
        fcntl.flock(running, fcntl.LOCK_EX if is_alone else fcntl.LOCK_SH)
        fcntl.flock(turn, fcntl.LOCK_UN)
        yield


@pytest.hookimpl(hookwrapper=True)
def pytest_runtest_makereport(item):
    """Adds the logs of the daemons of a test that failed to its report."""
    report = (yield).get_result()
    if report.failed:
        for it in item.stash.get(DAEMONS, []):
            lines = it.timed_log().decode(errors="replace").splitlines()
            report.sections.append(
                (f"the end of {it.path}, the log of {' '.join(map(str, it.process.args))}", "\n".join(lines[-SHOWN_LINES:]))
            )


def pytest_terminal_summary(terminalreporter, config):
    """Names the bayeuxd that was tested in this run, and the crates that passed before."""
    properties = [it for report in terminalreporter.stats.get("passed", []) for it in report.user_properties]
    before = sorted(value for name, value in properties if name == "passed_before")
    if before:
        terminalreporter.write_line(f"passed before with the same sources (--again runs them again): {' '.join(before)}")
    file = out(config) / "tests.bayeuxd"
    if file.exists() and file.stat().st_mtime >= config.stash[STARTED]:
        terminalreporter.write_line(f"the tested bayeuxd: {os.path.relpath(file.read_text(encoding='utf-8').partition(' ')[2])}")


def skip_required(config, name, reason):
    """Skips a test that cannot run here. With the proved programs, as in the gate, it fails unless GADZILK_LEAVE_OUT has `name`."""
    if config.getoption("--program") == "proved" and name not in os.environ.get("GADZILK_LEAVE_OUT", "").split():
        pytest.fail(f"{reason}; {name} must run; to leave it out, name it in GADZILK_LEAVE_OUT", pytrace=False)
    pytest.skip(reason)


@pytest.fixture(scope="session")
def skip(pytestconfig):
    """Skips a test that the gate requires: `skip(name, reason)`."""
    return lambda name, reason: skip_required(pytestconfig, name, reason)


@pytest.fixture(scope="session")
def program(pytestconfig, skip):
    """The path of the bayeuxd under test. Skips the test if the machine has no loopback."""
    if not base.has_loopback():
        skip("daemon", "the machine has no loopback")
    return program_path(pytestconfig, "bayeuxd")


@pytest.fixture(scope="session")
def replay_program(pytestconfig):
    """The path of bayeux_replay, of the same kind as `program`."""
    return program_path(pytestconfig, "bayeux_replay")


@pytest.fixture(scope="session")
def load_program(pytestconfig):
    """The path of bayeux_load, of the same kind as `program`."""
    if not base.has_loopback():
        pytest.skip("the machine has no loopback")
    try:
        return program_path(pytestconfig, "bayeux_load")
    except pytest.UsageError as error:
        pytest.skip(str(error))


@pytest.fixture(scope="session")
def is_checked(program):
    """Whether the program under test is a checked build, which is slow and has AddressSanitizer."""
    return has_sanitizer(program)


@pytest.fixture(scope="session")
def is_short(pytestconfig, is_checked):
    """Whether tests do less, since a checked build is slow. With --full, they do not."""
    return is_checked and not pytestconfig.getoption("--full")


@pytest.fixture(autouse=True)
def only_proved(request):
    """Skips tests with the mark `proved` if they take a checked build too long."""
    if request.node.get_closest_marker("proved") and request.getfixturevalue("is_short"):
        pytest.skip("a checked build takes minutes for this; --full runs it")


@pytest.fixture
def daemon(program, tmp_path, request):
    """Starts daemons: `daemon(*flags, **how)` returns a `Bayeuxd` that listens, unless `waits` is false. They end with the test.

    Their logs are in `tmp_path`, and in the report of a test that fails. One that ended by itself must have its `status`, by default 0.
    """
    daemons = request.node.stash.setdefault(DAEMONS, [])

    def start(*flags, waits=True, **how):
        path = tmp_path / f"bayeuxd-{len(daemons)}.log"
        daemons.append(Bayeuxd(how.pop("program", program), path, *flags, **how))
        if waits:
            daemons[-1].wait()
        return daemons[-1]

    yield start
    statuses = [it.end() for it in daemons]
    assert not any(statuses), f"daemons ended with the statuses {statuses}"


@pytest.fixture
def client():
    """Connects clients until the test ends: `client(target)` returns a `Connection` to a daemon, or to an address.

    Further arguments are those of the connection's class `kind`.
    """
    with contextlib.ExitStack() as stack:

        def connect(target, *args, kind=Connection):
            return stack.enter_context(kind(target.address if isinstance(target, Bayeuxd) else target, *args))

        yield connect


@pytest.fixture(scope="session")
def system_library(tmp_path_factory, skip):
    """The path of tests/lib/system.c as a library. Skips the test, which the gate requires, if there is no C compiler."""
    if not base.has_compiler():
        skip("daemon", "there is no C compiler")
    return base.compile_library("tests/lib/system.c", tmp_path_factory.mktemp("system"))


@pytest.fixture
def system(system_library):
    """Returns environments for `daemon(env=..)`: `system(**variables)`, with variables that tests/lib/system.c describes."""
    return lambda **variables: preloading(system_library, **variables)


def make_clock(system, folder, **how):
    """Returns a `Clock` whose `env` is for `daemon(env=..)`."""
    clock = Clock(folder, **how)
    clock.env = system(**clock.variables)
    return clock


@pytest.fixture
def clock(system, tmp_path):
    """A monotonic clock that does not go on: `clock.add(seconds)` puts it forward. Ticks go on ten times a second."""
    return make_clock(system, tmp_path, is_standing=True)


@pytest.fixture
def ticks(system, tmp_path):
    """The same clock, and ticks that happen only in `ticks.tick(count)`."""
    return make_clock(system, tmp_path, has_ticks=True)


@pytest.fixture
def clock_ahead(system, tmp_path):
    """Clocks that go on as usual, and that `add(seconds)` puts forward."""
    return make_clock(system, tmp_path)


@pytest.fixture
def nginx(tmp_path):
    """Starts nginx in front of a port: `nginx(port, changes)` returns its address. `changes`: new texts by old texts of nginx.conf."""
    missing = [it for it in ("nginx", "openssl", "curl") if not shutil.which(it)]
    if missing:
        pytest.skip(f"there is no {missing[0]}")
    with contextlib.ExitStack() as stack:

        def start(port, changes=None):
            folder = tmp_path / f"nginx-{port}"
            folder.mkdir()
            return stack.enter_context(nginx_server.serving(port, folder, changes or {}))

        yield start
