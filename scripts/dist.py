"""The release in dist/: packages of the proved programs, what each program was built from, and checksums.

usage: python3 scripts/dist.py FOLDER        (writes SOURCES and SHA256SUMS to the folder of a new release)

scripts/release makes it. To read it, Python's standard library is enough.
"""
import os
import sys
import tarfile
import tempfile

import repository

FOLDER = f"{repository.TOP}/dist"
# SOURCES has a line for each program: its name, the checksum of its text, and the toolchain that
# built it. CHECKSUMS has the checksum of each other file.
CHECKSUMS, SOURCES = "SHA256SUMS", "SOURCES"
PROGRAMS = ("bayeuxd", "bayeux_replay", "bayeux_load")
# Where programs of the release are extracted to.
EXTRACTED = f"{repository.TOP}/out/release"
# The command that strips a program for the package, without its path.
STRIP = ("strip", "--strip-unneeded", "--remove-section=.comment", "--remove-section=.note")


class Unusable(Exception):
    """There is no release, or it cannot be read, or a file differs from its checksum. The text is the reason."""


def describe(folder):
    """Writes SOURCES and SHA256SUMS to `folder`. Its programs are those that the toolchain on the path built from the current text."""
    checksums, kit_id = repository.Checksums(), repository.kit_id(repository.toolchain())
    with open(f"{folder}/{SOURCES}", "w", encoding="ascii") as file:
        file.writelines(f"{it} {checksums.checksum(it)} {kit_id}\n" for it in PROGRAMS)
    names = sorted(it for it in os.listdir(folder) if it != CHECKSUMS)
    with open(f"{folder}/{CHECKSUMS}", "w", encoding="ascii") as file:
        file.writelines(f"{repository.digest_of(f'{folder}/{it}')}  {it}\n" for it in names)


class Release:
    """The release in FOLDER. Its files have the checksums in SHA256SUMS."""

    def __init__(self):
        """Reads the release. Raises `Unusable` if there is none, or if a file is missing or differs from its checksum."""
        self.checksums = {name: digest for digest, name in self.lines(CHECKSUMS, 2)}
        for name, digest in self.checksums.items():
            if not os.path.isfile(f"{FOLDER}/{name}") or repository.digest_of(f"{FOLDER}/{name}") != digest:
                raise Unusable(f"dist/{name} differs from its checksum in dist/{CHECKSUMS}")
        self.sources = {name: (checksum, kit_id) for name, checksum, kit_id in self.lines(SOURCES, 3)}
        if tuple(self.sources) != PROGRAMS or SOURCES not in self.checksums:
            raise Unusable(f"dist/{SOURCES} has {len(self.sources)} programs, or no checksum in dist/{CHECKSUMS}")
        # The archive that has the programs.
        self.archive = next((it for it in self.checksums if it.endswith(".tar.gz")), "no archive")

    @staticmethod
    def lines(name, count):
        """Returns the lines of the file `name`, each split into `count` texts. Raises `Unusable` if it is missing or has another form."""
        try:
            with open(f"{FOLDER}/{name}", encoding="ascii", errors="replace") as file:
                found = [it.split(None, count - 1) for it in file.read().splitlines()]
        except FileNotFoundError as error:
            raise Unusable("there is no release in dist/") from error
        if any(len(it) != count for it in found):
            raise Unusable(f"dist/{name} has a line of another form")
        return found

    def is_current(self, name):
        """Returns `True` if program `name` was built from the current text, by a toolchain that this repository is written for."""
        checksum, kit_id = self.sources[name]
        return checksum == repository.Checksums().checksum(name) and repository.LOGIC in kit_id

    def program(self, name):
        """Returns program `name`, as bytes. Raises `Unusable` if it cannot be read from the archive."""
        try:
            with tarfile.open(f"{FOLDER}/{self.archive}") as archive:
                return archive.extractfile(f"{self.archive.removesuffix('.tar.gz')}/bin/{name}").read()
        except (OSError, tarfile.TarError, KeyError) as error:
            raise Unusable(f"{name} cannot be read from dist/{self.archive}: {error}") from error

    def extract(self, name):
        """Extracts program `name` to EXTRACTED, unless it is there, and returns its path.

        Raises `Unusable` if it cannot be read from the archive.
        """
        path, checksum = f"{EXTRACTED}/{name}", self.checksums.get(self.archive)
        if not repository.is_up_to_date(path, checksum):
            program = self.program(name)
            os.makedirs(EXTRACTED, exist_ok=True)
            with tempfile.TemporaryDirectory(prefix=".extracting-", dir=EXTRACTED) as temp_dir:
                with open(f"{temp_dir}/{name}", "wb") as file:
                    file.write(program)
                os.chmod(file.name, 0o755)
                repository.record_build(file.name, checksum)
                # A process that runs the old file keeps it.
                os.replace(file.name, path)
                os.replace(f"{file.name}.made", f"{path}.made")
        return path


if __name__ == "__main__":
    describe(sys.argv[1])
