"""What tests and benchmarks share: paths, pages, waiting, ports, processes, and a C compiler."""
import contextlib
import functools
import importlib.machinery
import importlib.util
import os
import pathlib
import resource
import selectors
import shutil
import signal
import socket
import subprocess
import sys
import time

# Debian's modules, if this is another Python.
sys.path.append("/usr/lib/python3/dist-packages")
TOP = pathlib.Path(__file__).resolve().parent.parent.parent
# How long a check waits for what must come, in seconds. A machine that does other work may be many times slower.
TIMEOUT_SECONDS = float(os.environ.get("GADZILK_PATIENCE", "240"))
# The error of a check that failed. It is the error of `assert`, so that scripts and pytest can use the same functions.
CheckFailed = AssertionError


def read(path):
    """Returns the text of a file of the repository. `path`: from the top on."""
    return (TOP / path).read_text(encoding="utf-8")


def load_script(path):
    """Returns a script of Python as a module, also if its name has no ending."""
    loader = importlib.machinery.SourceFileLoader(pathlib.Path(path).name, str(path))
    module = importlib.util.module_from_spec(importlib.util.spec_from_loader(loader.name, loader))
    loader.exec_module(module)
    return module


@functools.cache
def tracked():
    """Returns the paths of the files that Git has or would add, from the top on."""
    args = ["git", "ls-files", "-co", "--exclude-standard"]
    text = subprocess.run(args, cwd=TOP, check=True, stdout=subprocess.PIPE, text=True).stdout
    return [it for it in text.splitlines() if (TOP / it).is_file()]


def section(page, heading):
    """Returns the text below a heading of the second level of `page`, a path from the top on, up to the next one."""
    _, found, rest = read(page).partition(f"\n## {heading}\n")
    if not found:
        raise CheckFailed(f"{page} has no section {heading!r}")
    return rest.partition("\n## ")[0]


def finish(main):
    """Calls `main`, and exits with its status, or with 130 after SIGINT and 143 after SIGTERM, which raise exceptions in `main`."""
    signal.signal(signal.SIGTERM, lambda *_: sys.exit(143))
    try:
        sys.exit(main())
    except KeyboardInterrupt:
        sys.exit(130)


def limit_file_size(size):
    """Limits files to `size` bytes, in a process that is about to start a program. A write then fails."""
    signal.signal(signal.SIGXFSZ, signal.SIG_IGN)
    resource.setrlimit(resource.RLIMIT_FSIZE, (size, size))


def readable(*files, seconds=0.0, event=selectors.EVENT_READ):
    """Returns those of `files` that can be read, or have another `event`, after a wait of at most `seconds` for the first.

    Without an end to the wait if `seconds` is `None`. A descriptor may have any number (`select.select` takes those below 1,024).
    """
    with selectors.DefaultSelector() as selector:
        for it in files:
            selector.register(it, event)
        return [it.fileobj for it, _ in selector.select(seconds)]


def wait_until(what, condition, seconds=TIMEOUT_SECONDS, pause=0.02):
    """Waits until `condition()` returns a true value, and returns it. Raises `CheckFailed` after `seconds` seconds.

    `what`: the condition in words, for the message. `pause`: the seconds between two looks.
    """
    deadline = time.monotonic() + seconds
    while True:
        result = condition()
        if result:
            return result
        if time.monotonic() > deadline:
            raise CheckFailed(f"not in {seconds} seconds: {what}")
        time.sleep(pause)


def retry(check, tries):
    """Calls `check` until it passes, at most `tries` times. Raises its last `CheckFailed` or `OSError` if it does not."""
    for left in reversed(range(tries)):
        try:
            check()
            return
        except (CheckFailed, OSError):
            if not left:
                raise


def make_program(path, text):
    """Makes a shell script with the text `text`, and returns its path."""
    path = pathlib.Path(path)
    path.write_text(f"#!/bin/sh\n{text}\n", encoding="utf-8")
    path.chmod(0o755)
    return str(path)


def has_compiler():
    """Returns `True` if there is a C compiler."""
    return shutil.which("cc") is not None


def compile_library(source, folder, *flags):
    """Compiles `source`, a path from the top on, into a library in `folder` that programs can preload, and returns its path."""
    library = f"{folder}/{pathlib.Path(source).stem}.so"
    subprocess.run(["cc", "-O2", "-Wall", "-shared", "-fPIC", *flags, "-o", library, f"{TOP}/{source}"], check=True)
    return library


def has_loopback():
    """Returns `True` if a connection to 127.0.0.1 can be made."""
    try:
        with socket.create_server(("127.0.0.1", 0)) as listener, socket.create_connection(listener.getsockname()):
            return True
    except OSError:
        return False


def has_ipv6():
    """Returns `True` if a process can listen at the loopback address of IPv6."""
    with contextlib.suppress(OSError), socket.create_server(("::1", 0), family=socket.AF_INET6):
        return True
    return False


@contextlib.contextmanager
def reserved_port():
    """A port of 127.0.0.1 that the system gives to no process that asks for any port. A server that names it can listen there."""
    with socket.socket() as it:
        it.setsockopt(socket.SOL_SOCKET, socket.SO_REUSEADDR, 1)
        it.bind(("127.0.0.1", 0))
        yield it.getsockname()[1]


def can_connect(port):
    """Returns `True` if a process listens on `port` of 127.0.0.1."""
    with socket.socket() as it:
        return it.connect_ex(("127.0.0.1", port)) == 0


def child_of(process_id):
    """Waits until a process has a child, and returns the id of its first child."""
    children = pathlib.Path(f"/proc/{process_id}/task/{process_id}/children")
    return int(wait_until("a child", lambda: children.read_text(encoding="ascii").split())[0])


def end(process):
    """Terminates `process`, and kills it if it is still running after 10 seconds."""
    if process.poll() is None:
        process.terminate()
        try:
            process.wait(10)
        except subprocess.TimeoutExpired:
            process.kill()
            process.wait()
