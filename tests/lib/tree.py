"""A small copy of this repository: ./bayeux with stubs in place of the toolchain, of the crates, and of the scripts that build programs."""
import io
import os
import pathlib
import subprocess
import sys
import tarfile

from base import TOP

FILES = ("bayeux", "scripts/dist.py", "scripts/program", "scripts/repository.py")
PROGRAMS = ("bayeuxd", "bayeux_replay", "bayeux_load")
ARCHIVE = "gadzilk-1-x86_64-linux"
# A program that prints its kind and its arguments.
PROGRAM = '#!/bin/sh\necho {} "$@"\n'
# Stubs: scripts/checked prints the path of a program, scripts/build fails, and scripts/replay_record prints the program and its arguments.
STUBS = {
    "scripts/checked": '#!/bin/sh\nfile=$(dirname "$0")/$1\nprintf \'#!/bin/sh\\necho checked "$@"\\n\' >"$file"\nchmod +x "$file"\necho "$file"\n',
    "scripts/build": '#!/bin/sh\necho build "$@"\nexit 3\n',
    "scripts/replay_record": '#!/bin/sh\necho "$REPLAY" "$@"\n',
    "tests/run": '#!/bin/sh\necho test "$@"\n',
}
# Calls functions of the copy's scripts, with the arguments.
CALL = 'import sys; sys.dont_write_bytecode = True; sys.path.insert(0, "scripts"); import dist, repository; {}'
RECORD = CALL.format("repository.record_build(sys.argv[1], repository.Checksums(repository.toolchain()).checksum(sys.argv[2]))")
DESCRIBE = CALL.format('dist.describe("dist")')


class Tree:
    """A repository in `folder`, with three small programs in place of the crates, and a toolchain with nothing but its version."""

    def __init__(self, folder):
        self.top = pathlib.Path(folder, "repository")
        for it in FILES:
            self.write(it, (TOP / it).read_bytes(), 0o755)
        for it, text in STUBS.items():
            self.write(it, text, 0o755)
        self.write("crates.txt", "".join(f"{it}:\n" for it in PROGRAMS))
        for it in PROGRAMS:
            self.write(f"crates/{it}/src/main.rt", f"fn {it}() {{}}\n")
        # The search paths for programs, without the toolchain and with it.
        self.bare_path = f"{folder}/bin:/usr/bin:/bin"
        self.path = f"{folder}/kit/bin:{self.bare_path}"
        self.write("../kit/bin/rt", "", 0o755)
        self.write("../kit/KIT-ID", f"kit {self.python(CALL.format('print(repository.LOGIC)'))}")
        os.mkdir(f"{folder}/bin")
        os.symlink(sys.executable, f"{folder}/bin/python3")

    def write(self, path, data, mode=0o644):
        """Writes the file `path`. `data`: bytes or text."""
        file = self.top / path
        file.parent.mkdir(parents=True, exist_ok=True)
        file.write_bytes(data if isinstance(data, bytes) else data.encode())
        file.chmod(mode)

    def python(self, text, *args):
        """Runs a Python text in the folder, and returns its output."""
        status, output, errors = self.call(sys.executable, "-c", text, *args)
        assert status == 0, errors
        return output

    def call(self, *args, path=None):
        """Runs a command in the folder, and returns its status, its output and its errors. `path`: the search path for programs."""
        env = {**os.environ, "PATH": path or self.path}
        result = subprocess.run(args, cwd=self.top, env=env, capture_output=True, text=True, check=False, timeout=60)
        return result.returncode, result.stdout.strip(), result.stderr

    def bayeux(self, *args, path=None):
        """Runs ./bayeux, whose status must be 0. Returns what it prints, and whether it says that a program is a checked build."""
        status, output, errors = self.call("./bayeux", *args, path=path)
        assert status == 0, errors
        return output, "bayeux: checked build: " in errors

    def prove(self, text=PROGRAM.format("proved")):
        """Makes each program proved and built from the current sources, with `text` as its content."""
        for it in PROGRAMS:
            self.write(f"crates/{it}/out/{it}", text, 0o755)
            self.python(RECORD, f"crates/{it}/out/{it}", it)

    def release(self):
        """Makes a release of the current sources."""
        content, data = io.BytesIO(), PROGRAM.format("released").encode()
        with tarfile.open(fileobj=content, mode="w:gz") as archive:
            for it in PROGRAMS:
                head = tarfile.TarInfo(f"{ARCHIVE}/bin/{it}")
                head.size = len(data)
                archive.addfile(head, io.BytesIO(data))
        self.write(f"dist/{ARCHIVE}.tar.gz", content.getvalue())
        self.python(DESCRIBE)

    def damage(self):
        """Adds a byte to the archive of the release."""
        self.write(f"dist/{ARCHIVE}.tar.gz", (self.top / f"dist/{ARCHIVE}.tar.gz").read_bytes() + b"\n")
