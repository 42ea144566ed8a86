"""What is installed of tools/packages.txt, whose lines have a package of Debian and what is asked for of it: programs, files,
headers that gcc finds, modules of Python."""

import importlib.util
import pathlib
import shutil
import subprocess

LINES = (pathlib.Path(__file__).resolve().parent.parent.parent / "tools/packages.txt").read_text().splitlines()
NOT_INSTALLED = 77  # the status where a package is missing, and no other fault's
PACKAGES = {name: package for package, *names in map(str.split, LINES) for name in names}


def is_there(name):
    if name.startswith("/"):
        return pathlib.Path(name).exists()
    if name.endswith(".h"):
        words = ["gcc", "-E", "-include", name, "-x", "c", "/dev/null"]
        return is_there(words[0]) and subprocess.run(words, capture_output=True).returncode == 0
    return bool(shutil.which(name) or importlib.util.find_spec(name))


def missing(*names):
    """The packages of these that are not installed. A name of no package in the list is an error, also where it is found."""
    packages = [(PACKAGES[name], name) for name in names]
    return list(dict.fromkeys(package for package, name in packages if not is_there(name)))
