"""Debian's packages, unpacked in a folder and not installed: the sources of what is tested, and tests."""

import subprocess
from pathlib import Path

LIST = """Types: deb deb-src
URIs: http://deb.debian.org/debian
Suites: {}
Components: main
Signed-By: /usr/share/keyrings/debian-archive-keyring.gpg
"""


def run(*words, **more):
    return subprocess.run([str(word) for word in words], capture_output=True, text=True, errors="replace", **more)


def version():
    """The name of Debian's version that this machine has."""
    lines = Path("/etc/os-release").read_text().splitlines()
    return next((line.split("=")[1].strip('"') for line in lines if line.startswith("VERSION_CODENAME=")), "bookworm")


class Packages:
    """What apt-get brings into a folder. It is kept there, and asked for once."""

    def __init__(self, folder):
        self.folder = Path(folder).resolve()
        self.folder.mkdir(parents=True, exist_ok=True)

    def source(self, name):
        """The folder of a package's sources, as they are before Debian's changes; or None, where they can't be had."""
        into = self.folder / f"{name}.source"
        if not into.exists():
            self.ask("source", "--download-only", name)
            for archive in self.folder.glob(f"{name}_*.orig.tar.*z*"):
                into.mkdir(exist_ok=True)
                run("tar", "xf", archive, "-C", into)
        return next(iter(sorted(into.glob("*/"))), None)

    def binary(self, name):
        """The folder that has the files of a package of this machine, or None."""
        into = self.folder / f"{name}.files"
        if not into.exists():
            run("apt-get", "-q", "download", name, cwd=self.folder)
            for archive in self.folder.glob(f"{name}_*.deb"):
                run("dpkg", "-x", archive, into)
        return into if into.exists() else None

    def root(self, machine, *names):
        """A folder that has the files of these packages of another machine, as its root has them; or None."""
        into = self.folder / f"{machine}.root"
        if not into.exists():
            self.ask("download", *[f"{name}:{machine}" for name in names], machine=machine)
            found = [archive for name in names for archive in self.folder.glob(f"{name}_*_{machine}.deb")]
            for archive in found if len(found) == len(names) else []:
                run("dpkg", "-x", archive, into)
        return into if into.exists() else None

    def ask(self, *what, machine=None):
        """Asks apt-get by a list of its own, since a machine need not have sources, or another machine's packages, in
        its own list. Each list is read once."""
        folder = self.folder / (machine or "sources")
        words = ["-q", "-o", "Dir::Etc::sourcelist=/dev/null", "-o", f"Dir::Etc::sourceparts={folder}", "-o",
                 f"Dir::State::lists={folder}/lists"]
        if machine:
            words += ["-o", f"APT::Architecture={machine}", "-o", f"APT::Architectures={machine}"]
        if not folder.exists():
            (folder / "lists/partial").mkdir(parents=True)
            (folder / "debian.sources").write_text(LIST.format(version()))
            run("apt-get", *words, "update", cwd=self.folder)
        run("apt-get", *words, *what, cwd=self.folder)
