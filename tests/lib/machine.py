"""A small Debian on which systemd runs, in a container with a network of its own. All that changes in it is lost at its end."""
import contextlib
import ctypes
import fcntl
import hashlib
import os
import pathlib
import platform
import shlex
import shutil
import signal
import subprocess

import pytest
from base import wait_until

# Where the installed Debian is kept, since each container only reads it.
FOLDER = "/var/cache/gadzilk-tests"
INSTALLED = "systemd-sysv,nginx,openssl,curl,python3,man-db,ca-certificates"
# Packages that apt can install in the container, which reaches no other machine.
DOWNLOADED = "prometheus prometheus-node-exporter"
DOWNLOAD = f"apt-get clean && apt-get install -y -qq --download-only --no-install-recommends {DOWNLOADED}"
# With this file, each installation updates the index of manual pages.
UPDATED = "/var/lib/man-db/auto-update"
TOOLS = {"mmdebstrap": "mmdebstrap", "systemd-nspawn": "systemd-container", "nsenter": "util-linux", "setpriv": "util-linux"}
NEW_NETWORK = 0x40000000
# How long the container may take to start, and a command in it, in seconds. A machine that does other work may be many times slower.
COMMAND_SECONDS = 1800


def find_system():
    """Returns the folder of the Debian, which is installed if it is not there. Skips the test if it cannot be."""
    if os.geteuid() != 0:
        pytest.skip("only root can start a container")
    for tool, package in TOOLS.items():
        if not shutil.which(tool):
            pytest.skip(f"there is no {tool} (package {package})")
    release = platform.freedesktop_os_release()
    if release["ID"] != "debian":
        pytest.skip("this machine has no Debian, whose release would be taken")
    args = ["mmdebstrap", "--quiet", "--variant=minbase", f"--include={INSTALLED}", "--skip=cleanup/apt", "--aptopt=Acquire::Languages \"none\""]
    args += [f"--customize-hook=chroot \"$1\" sh -c '{DOWNLOAD} && rm {UPDATED}'", release["VERSION_CODENAME"]]
    os.makedirs(FOLDER, mode=0o755, exist_ok=True)
    system = f"{FOLDER}/{hashlib.sha256(repr(args).encode()).hexdigest()[:12]}"
    with open(f"{FOLDER}/lock", "wb") as lock:
        fcntl.flock(lock, fcntl.LOCK_EX)
        if not os.path.isdir(system):
            shutil.rmtree(f"{FOLDER}/new", ignore_errors=True)
            result = subprocess.run([*args, f"{FOLDER}/new"], stdin=subprocess.DEVNULL, capture_output=True, text=True, check=False)
            if result.returncode != 0:
                pytest.skip(f"mmdebstrap ended with status {result.returncode}: {result.stderr.strip()[-300:]}")
            os.rename(f"{FOLDER}/new", system)
    return system


class Machine:
    """A running container. `folder`: for its log. `root`: the folder of its files, as this machine sees them."""

    def __init__(self, folder):
        """Starts a container, and waits until its systemd has started. Skips the test if it cannot be started."""
        # If this process is killed, systemd-nspawn shuts the container down.
        args = ["setpriv", "--pdeathsig", "TERM", "systemd-nspawn", "--quiet", "--register=no", "--keep-unit", "--boot", "--console=pipe"]
        args += ["--read-only", "--volatile=overlay", "--private-network", "--resolv-conf=off", "--timezone=off"]
        self.log = pathlib.Path(folder, "machine.log")
        args += [f"--directory={find_system()}"]
        # Containers would share the names of their control groups, so only one runs at a time. It keeps the lock.
        with open(self.log, "wb") as log, open(f"{FOLDER}/running", "wb") as lock:
            fcntl.flock(lock, fcntl.LOCK_EX)
            self.process = subprocess.Popen(args, stdin=subprocess.DEVNULL, stdout=log, stderr=log, pass_fds=[lock.fileno()])
        try:
            self.wait("the container runs", lambda: self.process.poll() is not None or self.has_started())
        except BaseException as error:
            self.end()
            if isinstance(error, AssertionError):
                pytest.skip("systemd does not start in a container")
            raise
        if self.process.poll() is not None:
            pytest.skip(f"systemd-nspawn: {self.log.read_text(encoding='utf-8').strip()[-300:]}")
        self.root = pathlib.Path(f"/proc/{self.init}/root")

    @property
    def init(self):
        """The id of the container's process 1, as this machine counts. 0 if there is none yet."""
        children = pathlib.Path(f"/proc/{self.process.pid}/task/{self.process.pid}/children").read_text(encoding="ascii")
        return int(children.split()[0]) if children.strip() else 0

    def has_started(self):
        """Returns `True` once all services of the container have started."""
        with contextlib.suppress(AssertionError, FileNotFoundError):
            return self.init and self.run("systemctl is-system-running --wait || true") in ("running\n", "degraded\n")
        return False

    def command(self, script):
        """Returns the command line that runs a shell script as root in the container."""
        shell = ["/usr/bin/env", "-i", "HOME=/root", "LANG=C.UTF-8", "PATH=/usr/sbin:/usr/bin:/sbin:/bin", "bash", "-ec", f"cd\n{script}"]
        return ["nsenter", "--target", str(self.init), "--all", *shell]

    def run(self, script, status=0):
        """Runs a shell script as root in the container, and returns what it prints, also as errors. Fails if its status is not `status`."""
        how = {"stdin": subprocess.DEVNULL, "stdout": subprocess.PIPE, "stderr": subprocess.STDOUT, "text": True}
        result = subprocess.run(self.command(script), check=False, timeout=COMMAND_SECONDS, **how)
        assert result.returncode == status, f"status {result.returncode} of\n{script}\n{result.stdout}"
        return result.stdout

    def wait(self, what, condition):
        """Waits until `condition()` returns a true value. `what`: the condition in words."""
        wait_until(what, condition, COMMAND_SECONDS, 0.2)

    def start(self, script):
        """Starts a shell script in the container, and returns the process without waiting."""
        return subprocess.Popen(self.command(script), stdin=subprocess.DEVNULL, stdout=subprocess.PIPE, text=True)

    def ask(self, body, address="http://127.0.0.1:8087/cometd", *args):
        """Posts `body` in the container, and returns the response: its status, a space, and its text. `args`: more arguments of curl."""
        post = ["curl", "-sk", "-w", "\\n%{http_code}", "-H", "Content-Type: application/json", "-d", body, *args, address]
        text, _, status = subprocess.run(self.command(shlex.join(post)), capture_output=True, text=True, check=False).stdout.rpartition("\n")
        return f"{status} {text}"

    @contextlib.contextmanager
    def network(self):
        """Lets this process, and the programs that it starts, use the network of the container instead of their own."""
        libc = ctypes.CDLL(None, use_errno=True)
        with open("/proc/thread-self/ns/net", "rb") as own, open(f"/proc/{self.init}/ns/net", "rb") as other:
            assert libc.setns(other.fileno(), NEW_NETWORK) == 0, os.strerror(ctypes.get_errno())
            try:
                yield
            finally:
                assert libc.setns(own.fileno(), NEW_NETWORK) == 0, os.strerror(ctypes.get_errno())

    def read(self, path):
        return (self.root / path.lstrip("/")).read_text(encoding="utf-8")

    def write(self, path, text):
        file = self.root / path.lstrip("/")
        file.parent.mkdir(parents=True, exist_ok=True)
        file.write_text(text, encoding="utf-8")

    def end(self):
        """Kills process 1 of the container, and so all others. Then systemd-nspawn ends."""
        if self.process.poll() is None and self.init:
            os.kill(self.init, signal.SIGKILL)
        else:
            self.process.terminate()
        self.process.wait()
