#!/usr/bin/env python3
"""Whether programs and libraries are made from the sources as they stand.

    tools/built.py             prints the sum of all that they are made from: the sources, crates.txt and the kit
    tools/built.py --clear     removes from crates/*/out what an earlier run left and `rt ci` would put back in place of
                               what it makes: each library but those that `rt lib` made from the sources as they stand
    tools/built.py --by SUM    writes out/built, which says that `rt ci` made what stands in crates/*/out by this sum,
                               and has the sum of each program, and of each library below the C library that has no
                               mark of `rt lib`; takes it away where the sources have another sum now
    tools/built.py NAME..      status 0 only if these programs are so; else a line for each, and '0 passed, N failed'

`./check` clears, asks for the sum before `rt ci`, and writes it down after. Tests look there, and so does
tools/static_library, which makes the C library over what was proved. A program that is named to a test is taken as it
is.
"""

import functools
import hashlib
import shutil
import subprocess
import sys
from importlib.machinery import SourceFileLoader
from importlib.util import module_from_spec, spec_from_loader
from pathlib import Path

TOP = Path(__file__).resolve().parent.parent
BUILT = TOP / "out/built"
SOURCES = "sources"
EXPORTS = "ffi3_c"  # the crate that the C library is made from


def sum_of_sources():
    found = hashlib.sha256(subprocess.run(["rt", "version"], stdout=subprocess.PIPE, check=True).stdout)
    files = [file for part in ("src", "specs", "proofs") for file in TOP.glob(f"crates/*/{part}/**/*") if file.is_file()]
    for file in [TOP / "crates.txt", *sorted(files)]:
        found.update(repr((str(file.relative_to(TOP)), file.read_bytes())).encode())
    return found.hexdigest()


def program_of(name):
    return TOP / "crates" / name / "out" / name


def sum_of_program(name):
    return hashlib.sha256(program_of(name).read_bytes()).hexdigest()


# ---- libraries: crates/NAME/out/rlib has one, and `rt lib` puts beside it the file `stamp`, which says from what it is

def library_of(name):
    return TOP / "crates" / name / "out/rlib"


def named_library(name):
    """How out/built names the library of a crate, which may be a program's name too."""
    return f"{name}/out/rlib"


def has_mark(name):
    return (library_of(name) / "stamp").exists()


def sum_of_library(name):
    """The sum of a library's files, by which one that another run left in its place is known."""
    found, folder = hashlib.sha256(), library_of(name)
    for file in sorted(file for file in folder.glob("**/*") if file.is_file()):
        found.update(repr((str(file.relative_to(folder)), hashlib.sha256(file.read_bytes()).hexdigest())).encode())
    return found.hexdigest()


def module_of(path):
    spec = spec_from_loader(path.stem, SourceFileLoader(path.stem, str(path)))
    found = module_from_spec(spec)
    sys.modules[path.stem] = found
    spec.loader.exec_module(found)
    return found


@functools.cache
def rtlib():
    found = module_of(Path(shutil.which("rt")).resolve().parent / "rtlib.py")
    found.Crate.stamp = functools.cache(found.Crate.stamp)  # each crate asks again all that stand below it
    return found


@functools.cache
def crates_in(top):
    return {}


def crate(name, top=TOP):
    """What rt itself knows of a crate: what stands below it, and whether its library is built from the sources."""
    folder = str(top / "crates" / name)
    if folder not in crates_in(top):
        crates_in(top)[folder] = rtlib().Crate(folder, str(top), crates_in(top))
    return crates_in(top)[folder]


def below_exports():
    """The libraries that the C library is made from; none where rt's module is not as it is today."""
    try:
        return crate(EXPORTS).below()
    except (Exception, SystemExit):
        return []


def clear():
    for folder in TOP.glob("crates/*/out/rlib"):
        name = folder.parent.parent.name
        try:
            is_current = has_mark(name) and crate(name).is_built()
        except (Exception, SystemExit):
            is_current = False
        if not is_current:
            shutil.rmtree(folder)


def sums():
    """What out/built has: sums by the names of programs and libraries, and that of the sources."""
    lines = BUILT.read_text().splitlines() if BUILT.exists() else []
    return {name: found for found, name in map(str.split, lines)}


def write(by):
    BUILT.unlink(missing_ok=True)
    if sum_of_sources() == by:
        names = sorted(folder.name for folder in TOP.glob("crates/*"))
        programs = [name for name in names if program_of(name).is_file()]
        below = [library.name for library in below_exports()]
        libraries = [name for name in below if library_of(name).is_dir() and not has_mark(name)]
        BUILT.parent.mkdir(exist_ok=True)
        BUILT.write_text("".join(f"{found} {name}\n" for found, name in [
            (by, SOURCES), *((sum_of_program(name), name) for name in programs),
            *((sum_of_library(name), named_library(name)) for name in libraries)]))


def faults(*names):
    """Why these programs, or with no name the libraries, are not what the sources say, a line for each that is not."""
    known = sums()
    if known.get(SOURCES) != sum_of_sources():
        return [f"FAILED: {name} is not made from the sources as they stand: run ./check, or name a program"
                for name in names or ["crates/*/out"]]
    return [f"FAILED: {program_of(name).relative_to(TOP)} is not what ./check left: run it again, or name a program"
            for name in names if not program_of(name).is_file() or known.get(name) != sum_of_program(name)]


def is_as_left(library):
    """Whether the library of a crate, as rt knows it, is of these sources, whose sum out/built has: `rt lib` made it
    and says so, or it is the very one that `./check` left."""
    if has_mark(library.name):
        return library.is_built()
    return library_of(library.name).is_dir() and sums().get(named_library(library.name)) == sum_of_library(library.name)


def refuse(wrong):
    """Ends the process with these lines, if there are any."""
    if wrong:
        print(*wrong, f"0 passed, {len(wrong)} failed", sep="\n")
        sys.exit(1)


def programs(*names, words=None):
    """The programs that a test runs: those that its words name, and else these, which must be made from the sources."""
    given = [Path(word).resolve() for word in (sys.argv[1:] if words is None else words)]
    rest = names[len(given):]
    refuse(faults(*rest) if rest else [])
    return [*given, *map(program_of, rest)]


def main():
    match sys.argv[1:]:
        case []:
            print(sum_of_sources())
        case ["--clear"]:
            clear()
        case ["--by", by]:
            write(by)
        case names:
            refuse(faults(*names))


if __name__ == "__main__":
    main()
