"""Asks C compilers about declarations: which they take, and whether types have the sizes and leaves that are said.

What is said becomes a `_Static_assert` in a C file that nothing runs, so clang is asked for other targets too.
"""

import re
import subprocess
from concurrent.futures import ThreadPoolExecutor

import installed
from declaration import Struct, leaves_of
from signature import SIZES, Array

JOBS = 2
AT_ONCE = 100
MOST_LEAVES = 64  # of a type with more, half of so many are looked at from either end
SECONDS = 600
FLAGS = ["-std=gnu11", "-fsyntax-only"]
HEADERS = "#include <stddef.h>\n#include <stdint.h>\n"
KINDS = """#define KIND(x) _Generic((x), \\
    unsigned char: 'u', unsigned short: 'u', unsigned int: 'u', unsigned long: 'u', unsigned long long: 'u', \\
    unsigned __int128: 'u', signed char: 's', short: 's', int: 's', long: 's', long long: 's', __int128: 's', \\
    float: 'f', double: 'f', default: 'p')
"""
COMPILERS = {"gcc": ["gcc"], "clang": ["clang", "-ferror-limit=0"]}
# clang for other targets, with the headers that are its own.
OTHERS = {f"clang for {name}": [*COMPILERS["clang"], f"--target={triple}", "-ffreestanding"]
          for name, triple in (("aarch64", "aarch64-linux-gnu"), ("riscv64", "riscv64-linux-gnu"))}


def missing():
    return installed.missing(*COMPILERS, "/usr/include/stdio.h")


def version_of(command):
    return subprocess.run([*command, "--version"], capture_output=True, text=True).stdout.splitlines()[0]


def errors_of(command, files):
    """The names of the files in which the compiler finds errors, with the first error of each. A name may be one that
    a line marker gives."""
    ended = subprocess.run([*command, *FLAGS, *files], capture_output=True, timeout=SECONDS)
    told = ended.stderr.decode(errors="replace")
    found = {}
    for line in told.splitlines():
        if match := re.match(r"(.+?):\d+:(?:\d+:)? (?:fatal )?error: (.*)", line):
            found.setdefault(match[1], match[2])
    if bool(ended.returncode) != bool(found):
        raise ValueError(f"{command} ends with status {ended.returncode}: {told[:1000]}")
    return found


def ended(text):
    """The text as a compiler asks for it, with a semicolon at its end."""
    return text if text.rstrip(b" \t\r\n").endswith(b";") else text + b"\n;"


def refused(command, texts, folder):
    """The numbers of the texts that a compiler refuses, each read in a file of its own."""
    def of_some(start):
        names = []
        for number in range(start, min(start + AT_ONCE, len(texts))):
            names.append(f"{folder}/text{number}.c")
            with open(names[-1], "wb") as file:
                file.write(HEADERS.encode() + ended(texts[number]) + b"\n")
        return {number: errors[name] for errors in [errors_of(command, names)] for number, name
                in enumerate(names, start) if name in errors}

    found = {}
    with ThreadPoolExecutor(JOBS) as pool:
        for each in pool.map(of_some, range(0, len(texts), AT_ONCE)):
            found |= each
    return found


def refused_together(command, texts, folder):
    """The same of texts whose functions differ in their names: they are read in one file as long as one is refused, and
    then once more by itself."""
    suspects, rest = [], list(range(len(texts)))
    while True:
        with open(f"{folder}/together.c", "wb") as file:
            file.write(HEADERS.encode())
            for number in rest:
                file.write(f'# 1 "{number}"\n'.encode() + ended(texts[number]) + b"\n")
        errors = errors_of(command, [f"{folder}/together.c"])
        if not errors:
            break
        suspects += [number for number in rest if str(number) in errors]
        kept = [number for number in rest if str(number) not in errors]
        if len(kept) == len(rest):
            raise ValueError(f"{command} finds errors in no text: {errors}")
        rest = kept
    alone = refused(command, [texts[number] for number in suspects], folder)
    return {suspects[number]: error for number, error in alone.items()}


def kind_of(scalar):
    return "f" if scalar in ("float", "double") else scalar[0]


def counted(name, node, kind, path):
    """What C says of the arrays in a type, if they are those of this type. One element of each is looked at."""
    if isinstance(kind, Array) and isinstance(node, Array):
        member = f"((({name} *)0)->{path})"
        yield f'_Static_assert(sizeof{member} == {kind.count} * sizeof({member}[0]), "{path} has not {kind.count}");'
        yield from counted(name, node.element, kind.element, f"{path}[0]")
    elif isinstance(kind, tuple) and isinstance(node, Struct) and len(kind) == len(node.members):
        for (called, member), each in zip(node.members, kind):
            yield from counted(name, member, each, f"{path}.{called}" if path else called)
    elif not isinstance(kind, str) or not isinstance(node, str):
        yield f'_Static_assert(0, "{path or "it"} is of another form");'


def assertions(name, read, kind, layout):
    """What C says of a type, which is given a name, if it is this type with this layout."""
    yield f"typedef {read.text} {name};"
    yield from counted(name, read.node, kind, "")
    yield f'_Static_assert(sizeof({name}) == {layout.size}, "size is not {layout.size}");'
    yield f'_Static_assert(_Alignof({name}) == {layout.align}, "alignment is not {layout.align}");'
    paths = [path for _, path in leaves_of(read.node)]
    if len(paths) != len(layout.leaves):
        yield f'_Static_assert(0, "there are {len(paths)} leaves, not {len(layout.leaves)}");'
        return
    rows = list(zip(paths, layout.offsets, layout.leaves))
    if len(rows) > MOST_LEAVES:
        rows = rows[:MOST_LEAVES // 2] + rows[-MOST_LEAVES // 2:]
    for path, offset, scalar in rows:
        member = f"((({name} *)0)->{path})" if path else f"(*({name} *)0)"
        if path:
            yield f'_Static_assert(offsetof({name}, {path}) == {offset}, "{path} is not at {offset}");'
        yield f"_Static_assert(sizeof{member} == {SIZES[scalar]} && KIND({member}) == '{kind_of(scalar)}', " \
              f'"{path or "it"} is no {scalar}");'


def differing(command, said, folder):
    """The numbers of declarations of which the compiler denies what is said, with what it says. Said is, by number, a
    list of types: as each was read, the type that it is said to be, and its layout."""
    with open(f"{folder}/said.c", "w") as file:
        file.write(HEADERS + KINDS)
        for number, types in said.items():
            for i, each in enumerate(types):
                lines = "\n".join(assertions(f"d{number}_t{i}", *each))
                file.write(f'# 1 "{number}"\n{lines}\n')
    errors = errors_of(command, [f"{folder}/said.c"])
    if unknown := [name for name in errors if not name.isdigit()]:
        raise ValueError(f"{command} finds errors in {unknown[0]}: {errors[unknown[0]]}")
    return {int(name): error for name, error in errors.items()}
