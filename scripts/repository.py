"""The crates of this repository, the toolchain, checksums of what programs are built from, and runs of commands for each crate.

A crate is below another if the other depends on it, directly or through further crates.
"""
import hashlib
import os
import shutil
import subprocess
import sys
import time

TOP = os.path.dirname(os.path.dirname(os.path.realpath(__file__)))
# A part of the KIT-ID file of the toolchain that this repository is written for.
LOGIC = "logic dac8208d650f15bf"
PROCESSORS = len(os.sched_getaffinity(0))
# How often a run looks at its processes, in seconds.
PAUSE = 0.5
# The memory in GB that a check with one job is likely to need, and that each further job adds.
CHECK_MEMORY, JOB_MEMORY = 3.0, 1.0


def dependencies():
    """Returns the dependencies of each crate in crates.txt, by its name: crates of this repository and of the toolchain."""
    found = {}
    with open(f"{TOP}/crates.txt", encoding="utf-8") as file:
        for line in file:
            head, colon, libraries_of = line.partition("#")[0].partition(":")
            if colon:
                found[head.split()[0]] = libraries_of.split()
    return found


def libraries():
    """Returns the dependencies of each crate in crates.txt, by its name, without the toolchain's crates."""
    found = dependencies()
    return {name: [it for it in names if it in found] for name, names in found.items()}


def reachable(names, edges):
    """Returns the crates in `names` and all that can be reached from them. `edges`: the next crates of each crate."""
    found, left = [], list(names)
    while left:
        name = left.pop()
        if name not in found:
            found.append(name)
            left += edges[name]
    return found


def with_dependencies(names):
    """Returns the crates in `names` and all crates that they depend on, directly or not."""
    return reachable(names, libraries())


def with_dependents(names):
    """Returns the crates in `names` and all crates that depend on them, directly or not."""
    lower = libraries()
    return reachable(names, {it: [other for other in lower if it in lower[other]] for it in lower})


def files_of(name):
    """Returns the paths of all files in the folders src, specs and proofs of crate `name`."""
    found = []
    for part in ("src", "specs", "proofs"):
        for at, _, files in os.walk(f"{TOP}/crates/{name}/{part}"):
            found += [f"{at}/{file}" for file in files]
    return found


def kit_id(kit):
    """Returns the line that identifies the toolchain in the folder `kit`."""
    with open(f"{kit}/KIT-ID", encoding="ascii") as text:
        return text.read().strip()


def toolchain():
    """Returns the folder of the toolchain. Exits with a message if its command `rt` is not on the path or has another version."""
    found = shutil.which("rt")
    if not found:
        sys.exit("gadzilk: the toolchain's command rt is not on the path; see README.md")
    kit = os.path.dirname(os.path.dirname(os.path.realpath(found)))
    try:
        version = kit_id(kit)
    except OSError:
        version = "an unknown toolchain"
    if LOGIC not in version:
        sys.exit(f"gadzilk: expected rt of {LOGIC}, got {version}; put the folder of the right one first on the path")
    return kit


class Checksums:
    """Checksums of everything that a crate is built from: its files, its dependencies, the crates below it, and the toolchain.

    `kit`: the toolchain's folder, or `None` for checksums of the text alone. A sum is computed once, so a new object is needed to
    see later changes.
    """

    def __init__(self, kit=None):
        self.dependencies, self.found = dependencies(), {}
        self.kit = kit_id(kit).encode() if kit else b""

    def checksum(self, name):
        """Returns the checksum of crate `name`, as hexadecimal digits."""
        if name not in self.found:
            digest = hashlib.sha256(repr(self.dependencies[name]).encode())
            for file in sorted(files_of(name)):
                with open(file, "rb") as text:
                    digest.update(repr((file[len(TOP) :], text.read())).encode())
            for it in self.dependencies[name]:
                if it in self.dependencies:
                    digest.update(self.checksum(it).encode())
            digest.update(self.kit)
            self.found[name] = digest.hexdigest()
        return self.found[name]


def digest_of(file):
    """Returns the SHA-256 of a file's content, as hexadecimal digits."""
    with open(file, "rb") as text:
        return hashlib.sha256(text.read()).hexdigest()


def record_build(program, checksum):
    """Writes PROGRAM.made, which records the sum `checksum` and the digest of the program."""
    with open(f"{program}.made", "w", encoding="ascii") as text:
        text.write(f"{checksum} {digest_of(program)}")


def is_up_to_date(program, checksum):
    """Returns `True` if `program` exists and PROGRAM.made says that this very file was built from the sum `checksum`."""
    if not os.path.isfile(program) or not os.path.isfile(f"{program}.made"):
        return False
    with open(f"{program}.made", encoding="ascii") as text:
        return text.read() == f"{checksum} {digest_of(program)}"


def has_tests(name):
    """Returns `True` if a file of crate `name` contains a test."""
    for file in files_of(name):
        with open(file, encoding="utf-8") as text:
            if "#[test]" in text.read():
                return True
    return False


def is_program(name):
    """Returns `True` if crate `name` is a program, that is, if it has src/main.rt."""
    return os.path.isfile(f"{TOP}/crates/{name}/src/main.rt")


def lines_of(name):
    """Returns the number of lines of crate `name`, in the files of `files_of`."""
    count = 0
    for file in files_of(name):
        with open(file, "rb") as text:
            count += text.read().count(b"\n")
    return count


def total_lines(name):
    """Returns the number of lines of crate `name` and of all crates that it depends on."""
    return sum(map(lines_of, with_dependencies([name])))


def longest_chains(names):
    """Returns for each crate in `names` the number of lines of the longest chain of dependents that begins with it.

    A chain consists of crates in `names`, each of which depends directly on the one before.
    """
    lower, lengths = libraries(), {}

    def length(name):
        if name not in lengths:
            over = [length(it) for it in names if name in lower[it]]
            lengths[name] = lines_of(name) + max(over, default=0)
        return lengths[name]

    for name in names:
        length(name)
    return lengths


def free_memory():
    """Returns the available memory in GB."""
    with open("/proc/meminfo", encoding="ascii") as file:
        found = next(line.split()[1] for line in file if line.startswith("MemAvailable:"))
    return int(found) / 1_000_000


class ProgressLine:
    """Progress on standard error: on a terminal one line that is overwritten, otherwise line after line."""

    def __init__(self):
        self.is_terminal, self.shown = sys.stderr.isatty(), ""

    def clear(self):
        """Clears the line on a terminal."""
        self.shown = ""
        if self.is_terminal:
            sys.stderr.write("\r\033[K")
            sys.stderr.flush()

    def show(self, text):
        """Overwrites the line on a terminal with `text`, cut to its width. Does nothing if standard error is no terminal."""
        if self.is_terminal and text != self.shown:
            self.clear()
            self.shown = text
            sys.stderr.write(text[: os.get_terminal_size(2).columns - 1])
            sys.stderr.flush()

    def log(self, text):
        """Prints `text` on a line if standard error is no terminal."""
        if not self.is_terminal:
            print(text, file=sys.stderr, flush=True)


class CrateRun:
    """The commands of one crate. Each starts when the one before has succeeded. Their output goes to out/run.log of the crate."""

    def __init__(self, name, commands, jobs, is_first):
        """Starts the first command of crate `name`.

        `jobs` replaces JOBS in the commands. Unless `is_first`, they run under `nice`, so that they give way to the first crate.
        """
        self.name = name
        self.memory = CHECK_MEMORY + JOB_MEMORY * (jobs - 1)
        first = [] if is_first else ["nice"]
        self.left = [first + [it.replace("JOBS", str(jobs)) for it in args] for args in commands]
        self.begin = time.monotonic()
        os.makedirs(f"{TOP}/crates/{name}/out", exist_ok=True)
        self.log = open(f"{TOP}/crates/{name}/out/run.log", "w+b")
        self.status = 0
        self.process = None
        self.start_next()

    def start_next(self):
        """Starts the next command if there is one and none has failed, and returns `True` if it started one."""
        if self.status or not self.left:
            return False
        how = {"stdin": subprocess.DEVNULL, "stdout": self.log, "stderr": subprocess.STDOUT}
        self.process = subprocess.Popen(self.left.pop(0), cwd=f"{TOP}/crates/{self.name}", **how)
        return True

    def is_running(self):
        """Returns `True` if a command is running. Starts the next one if the last has ended."""
        if self.process.poll() is None:
            return True
        self.status = self.process.returncode
        return self.start_next()

    def output(self):
        """Returns the output of all commands so far."""
        self.log.seek(0)
        return self.log.read().decode(errors="replace")

    def minutes(self):
        """Returns the minutes since the first command started."""
        return (time.monotonic() - self.begin) / 60


def prove_commands(names):
    """Returns for each crate in `names` the `rt` command that proves it. `rt` does not repeat proofs that it has kept."""
    verbs = {name: "check" if is_program(name) else "lib" for name in names}
    return {name: [["rt", verb, "--jobs", "JOBS"]] for name, verb in verbs.items()}


def run(tasks, at_once=PROCESSORS):
    """Runs the commands of each crate when those of the crates below it have ended. Returns the crates in which one failed.

    `tasks`: the commands of each crate, by its name. `at_once`: the greatest number of crates that run at the same time. Use 1
    for `rt` commands: those that read the same libraries wait for one another.

    Of the crates that are ready, the one with the longest chain of dependents starts first, with as many jobs as there are free
    processors and memory for them. After a failure no further crate starts.
    """
    lower, chain = libraries(), longest_chains(list(tasks))
    left = sorted(tasks, key=lambda it: -chain[it])
    running, failed, line, memory, begin = [], [], ProgressLine(), 0.9 * free_memory(), time.monotonic()
    while running or left and not failed:
        for name in [] if failed else list(left):
            is_ready = not any(it in left or it in [crate_run.name for crate_run in running] for it in lower[name])
            idle, free = PROCESSORS - len(running), memory - sum(it.memory for it in running)
            if is_ready and len(running) < at_once and (free >= CHECK_MEMORY or not running):
                left.remove(name)
                jobs = max(1, min(idle, int(1 + (free - CHECK_MEMORY) / JOB_MEMORY)))
                running.append(CrateRun(name, tasks[name], jobs, all(chain[it.name] <= chain[name] for it in running)))
        time.sleep(PAUSE)
        for crate_run in [it for it in running if not it.is_running()]:
            running.remove(crate_run)
            ended = len(tasks) - len(left) - len(running)
            if crate_run.status:
                failed.append(crate_run.name)
                line.clear()
                sys.stderr.write(crate_run.output())
            line.log(f"{crate_run.name} {'FAILED' if crate_run.status else 'done'} in {crate_run.minutes():.1f} minutes ({ended} of {len(tasks)})")
        minutes, names = (time.monotonic() - begin) / 60, " ".join(it.name for it in running)
        line.show(f"{len(tasks) - len(left)} of {len(tasks)} crates, {minutes:.1f} minutes: {names}")
    line.clear()
    return failed
