#!/usr/bin/env python3
"""Runs the tests that libffi's clients have of it themselves, over a library.

    client_suites.py LIBRARY_FOLDER [--packages FOLDER] [NAME..]

A client is the one that is installed; its tests come from Debian's packages, which apt-get brings into FOLDER, or into
one that is gone after. NAME is one of ctypes, cffi, cffi-compiled, Fiddle, PHP and GLib; all, where none is given. What
fails is tried over the machine's own libffi too, and does not count where it fails there; REFUSED names what is known
to be refused. A line for each says what passes, and one before it what fails. The last line is 'N passed, M failed',
over clients.
"""

import argparse
import os
import re
import shutil
import subprocess
import sys
import tempfile
from pathlib import Path

sys.dont_write_bytecode = True
sys.path.insert(0, str(Path(__file__).resolve().parent))

from debian import Packages, run  # noqa: E402

# More than 64 arguments.
REFUSED = {"test_callback_too_many_args"}

# Programs of GLib's tests that make or call closures.
GLIB = """accumulator basic-signals basics-gobject binding bindinggroup boxed closure closure-refcount dynamictests
    dynamictype enums gdbus-connection gdbus-export gdbus-peer ifaceproperties object override param properties qdata
    reference references signal-handler signalgroup signals signals-refcount1 signals-refcount2 signals-refcount3
    signals-refcount4 simple-async-result task type value""".split()


class NotHere(Exception):
    """Why a client's tests are not run."""


def need(found, what):
    if not found:
        raise NotHere(what)
    return found


def over(library, *words, beside=None, **more):
    """What a command prints over a library. Another folder has the client's own."""
    folders = ":".join(str(folder) for folder in (library, beside) if folder)
    paths = {"LD_LIBRARY_PATH": folders} if folders else {}
    try:
        ran = run(*words, env=os.environ | {"NO_INTERACTION": "1"} | paths, timeout=3600, **more)
    except subprocess.TimeoutExpired:
        return "timeout"
    return ran.stdout + ran.stderr


# ---- clients: how many tests pass over a library, and the names of those that do not

def ctypes(library, packages):
    python = need(next(iter(sorted(Path("/usr/bin").glob("python3.*[0-9]"))), None), "python3")
    path = ""
    if run(python, "-c", "import ctypes.test").returncode and run(python, "-c", "import test.test_ctypes").returncode:
        tests = need(packages.binary(f"lib{python.name}-testsuite"), f"lib{python.name}-testsuite can't be had")
        # ctypes.test is a part of the package ctypes, so that package is put beside it.
        path = tests / f"usr/lib/{python.name}"
        for name in ("ctypes", "test"):
            shutil.copytree(f"/usr/lib/{python.name}/{name}", path / name, dirs_exist_ok=True)
    said = over(library, "env", f"PYTHONPATH={path}", python, "-m", "test", "-v", "test_ctypes")
    ran = re.search(r"^Ran (\d+) tests", said, re.M)
    wrong = set(re.findall(r"^(?:ERROR|FAIL): (\w+)", said, re.M))
    return int(ran[1]) - len(wrong) if ran else 0, wrong


def pytest(library, packages, *names):
    folder = need(packages.source("python-cffi"), "the sources of python-cffi can't be had")
    need(run("/usr/bin/python3", "-c", "import cffi, pytest").returncode == 0, "python3-cffi, python3-pytest")
    said = over(library, "/usr/bin/python3", "-m", "pytest", "-q", "-rf", "-p", "no:cacheprovider", *names, cwd=folder)
    passed = re.search(r"^(?:\d+ failed, )?(\d+) passed", said, re.M)
    return int(passed[1]) if passed else 0, set(re.findall(r"^FAILED \S*?(\w+(?:\[.*?\])?)(?: - |$)", said, re.M))


def cffi(library, packages):
    return pytest(library, packages, "c/test_c.py")


def cffi_compiled(library, packages):
    return pytest(library, packages, "testing/cffi0", "testing/cffi1")


def fiddle(library, packages):
    need(shutil.which("ruby"), "ruby")
    version = run("ruby", "-e", "print RUBY_VERSION[/^\\d+\\.\\d+/]").stdout
    folder = need(packages.source(f"ruby{version}"), f"the sources of ruby{version} can't be had")
    tests = 'require "test/unit"; Dir["fiddle/test_*.rb"].sort.each { |file| require "./" + file }'
    said = over(library, "ruby", "-I.", "-I../tool/lib", "-e", tests, cwd=folder / "test")
    counted = re.search(r"^(\d+) tests, \d+ assertions, (\d+) failures, (\d+) errors", said, re.M)
    wrong = set(re.findall(r"^ *\d+\) (?:Failure|Error):\n(\S+?)[ :(\[]", said, re.M))
    if not counted or int(counted[2]) + int(counted[3]) < len(wrong):
        return 0, wrong | {said[-300:]}
    return int(counted[1]) - int(counted[2]) - int(counted[3]), wrong


def php(library, packages):
    program = need(shutil.which("php"), "php-cli")
    version = run(program, "-r", "echo PHP_MAJOR_VERSION, '.', PHP_MINOR_VERSION;").stdout
    folder = need(packages.source(f"php{version}"), f"the sources of php{version} can't be had")
    said = over(library, program, "run-tests.php", "-q", "-p", program, "-d", "ffi.enable=1", "ext/ffi/tests",
                cwd=folder)
    passed = re.search(r"^Tests passed +: +(\d+)", said, re.M)
    return int(passed[1]) if passed else 0, set(re.findall(r"FAIL\S* .*\[(ext/\S+)\]", said))


def glib(library, packages):
    folder = Path("/usr/libexec/installed-tests/glib")
    if not folder.exists():
        folder = need(packages.binary("libglib2.0-tests"), "libglib2.0-tests can't be had") / str(folder)[1:]
    passed, wrong = 0, set()
    for name in GLIB:
        said = over(library, folder / name, "--tap", cwd=folder, beside=folder)
        passed += len(re.findall(r"^ok", said, re.M))
        ends = re.search(r"^1\.\.(\d+)", said, re.M)
        if not ends or len(re.findall(r"^ok", said, re.M)) < int(ends[1]):
            wrong.add(name)
    return passed, wrong


# Of each how many of its tests have to pass.
SUITES = {"ctypes": (ctypes, 494), "cffi": (cffi, 226), "cffi-compiled": (cffi_compiled, 1600), "Fiddle": (fiddle, 195),
          "PHP": (php, 82), "GLib": (glib, 271)}


def check(name, library, packages):
    of, least = SUITES[name]
    passed, wrong = of(library, packages)
    wrong -= REFUSED
    as_libffi = of(None, packages)[1] & wrong if wrong else set()
    for each in sorted(wrong):
        print(f"{name}: {each} fails{', and over libffi too' if each in as_libffi else ''}")
    alone = len(wrong - as_libffi)
    print(f"{name}: {passed} tests pass, of which {least} have to; {alone} fail over this library alone", flush=True)
    return passed >= least and wrong <= as_libffi


def main():
    words = argparse.ArgumentParser(description=__doc__.splitlines()[0])
    words.add_argument("library", type=Path)
    words.add_argument("--packages", type=Path)
    words.add_argument("names", nargs="*", metavar="NAME")
    given = words.parse_intermixed_args()
    if unknown := set(given.names) - set(SUITES):
        words.error(f"no such client: {', '.join(sorted(unknown))}")
    outcomes = []
    with tempfile.TemporaryDirectory() as folder:
        packages = Packages(given.packages or folder)
        for name in given.names or SUITES:
            try:
                outcomes.append(check(name, given.library.resolve(), packages))
            except NotHere as reason:
                print(f"{name}'s own tests: skipped: {reason}", flush=True)
    print(f"{outcomes.count(True)} passed, {outcomes.count(False)} failed")
    return 1 if False in outcomes else 0


if __name__ == "__main__":
    sys.exit(main())
