#!/usr/bin/env python3
"""Runs libffi's own test suite over a library, as its DejaGnu scripts do, and over Debian's libffi beside it.

    own_suite.py TESTSUITE LIBRARY_FOLDER [--jobs N] [--only FOLDER] [--cc WORDS] [--cxx WORDS] [--run WORDS]

Each program of libffi.call, .closures, .bhaible, .complex and .go is compiled with -O0 and -O2, and, where it has
ABI_NUM, on x86-64 for FFI_GNUW64 too; it is linked with -lffi and run with LD_LIBRARY_PATH set to the folder. It passes
where its status is 0 and its output matches its dg-output. Last comes a table by folder, above it each failure.

For another machine --cc and --cxx are its compilers, with -L of a libffi.so and -isystem of ffi.h, and --run
qemu-user's program; QEMU_LD_PREFIX names a folder with that machine's packages, libffi8 among them.
"""

import argparse
import collections
import concurrent.futures
import os
import re
import shlex
import subprocess
import tempfile
from pathlib import Path

CONFIG = """#define HAVE_STDINT_H 1
#define HAVE_INTTYPES_H 1
#define HAVE_MMAP_ANON 1
#define HAVE_LONG_DOUBLE 1
#define HAVE_ALLOCA_H 1
#define FFI_EXEC_STATIC_TRAMP 1 /* as libffi has it by default: a closure's code is not a view of the closure */
#define FFI_HIDDEN __attribute__((visibility("hidden")))
"""
WARNINGS = ["-w", "-Wno-psabi"]
POINTER = re.compile(rb"0x[0-9a-f]{6,}")
TCL = {"n": "\n", "t": "\t", "r": "\r"}


def wanted_of(text):
    """The pattern that all dg-output lines make together."""
    words = re.findall(r'dg-output\s+"((?:[^"\\]|\\.)*)"', text, re.S)
    return "".join(re.sub(r"\\(.)", lambda it: TCL.get(it[1], it[1]), word, flags=re.S) for word in words)


def cases(suite, only, has_win64):
    for folder in ("libffi.call", "libffi.closures", "libffi.bhaible", "libffi.complex", "libffi.go"):
        if only and folder != only:
            continue
        for source in sorted([*Path(suite, folder).glob("*.c"), *Path(suite, folder).glob("*.cc")]):
            text = source.read_text(errors="replace")
            # testcases.c is no program of its own; DejaGnu names the two others alone.
            numbers = [""]
            if folder == "libffi.bhaible":
                if source.name not in ("test-call.c", "test-callback.c"):
                    continue
                numbers = [f"-DDGTEST={k}" for k in range(1, 82 if source.name == "test-call.c" else 81)]
            abis = [[]]
            if has_win64 and "ABI_NUM" in text:
                abis = [[], ["-DABI_NUM=FFI_GNUW64", "-DABI_ATTR=__MSABI__"]]
            for number in numbers:
                for level in ("-O0", "-O2"):
                    for abi in abis:
                        yield folder, source, [it for it in (number, level) if it] + abi, wanted_of(text)


def run(words, **more):
    try:
        return subprocess.run(words, capture_output=True, timeout=300, **more)
    except subprocess.TimeoutExpired:
        return subprocess.CompletedProcess(words, 124, b"", b"timeout")


def outcome(ran, wanted):
    if ran.returncode:
        return f"status {ran.returncode}"
    if wanted and not re.search(wanted, ran.stdout.decode(errors="replace")):
        return "output"
    return "pass"


def play(case, room, folders, given, k):
    folder, source, options, wanted = case
    program = f"{room}/{k}"
    compiler = given.cxx if source.suffix == ".cc" else given.cc
    built = run([*compiler, *WARNINGS, *options, f"-I{room}", f"-I{source.parent}",
                 f"-I{source.parent.parent.parent}/include", "-o", program, str(source), "-lffi",
                 "-lm", "-lpthread"])
    if built.returncode:
        return case, ["not compiled"] * len(folders), built.stderr.decode()[-300:]
    told, outcomes = [], []
    for library in folders:
        path = f"LD_LIBRARY_PATH={library}"
        ran = run([*given.run, "-E", path, program] if given.run else ["env", path, program])
        outcomes.append(outcome(ran, wanted))
        told.append(ran.stdout)
    os.remove(program)
    same = POINTER.sub(b"0x", told[0]) == POINTER.sub(b"0x", told[1])
    return case, outcomes, ("" if same else "other output: ") + (told[1][-200:].decode(errors="replace"))


def main():
    words = argparse.ArgumentParser()
    words.add_argument("suite")
    words.add_argument("library")
    words.add_argument("--jobs", type=int, default=1)
    words.add_argument("--only")
    words.add_argument("--cc", type=shlex.split, default=["gcc"])
    words.add_argument("--cxx", type=shlex.split, default=["g++"])
    words.add_argument("--run", type=shlex.split, default=[])
    given = words.parse_args()
    counts = collections.defaultdict(collections.Counter)
    with tempfile.TemporaryDirectory() as room, concurrent.futures.ThreadPoolExecutor(given.jobs) as pool:
        Path(room, "fficonfig.h").write_text(CONFIG)
        machine = run([*given.cc, "-dumpmachine"]).stdout.decode()
        jobs = [pool.submit(play, case, room, ["", given.library], given, k)
                for k, case in enumerate(cases(given.suite, given.only, machine.startswith("x86_64")))]
        for job in jobs:
            (folder, source, options, _), (theirs, ours), told = job.result()
            counts[folder]["cases"] += 1
            counts[folder]["libffi passes"] += theirs == "pass"
            counts[folder]["ours"] += ours == "pass"
            counts[folder]["same output"] += not told.startswith("other output")
            if ours != "pass" or told.startswith("other output"):
                last = told.strip().splitlines()[-1] if told.strip() else ""
                print(f"{folder}/{source.name} {' '.join(options)}: ours {ours}, libffi {theirs}: {last[:150]}",
                      flush=True)
    for folder, count in counts.items():
        print(folder, dict(count))
    print("all", dict(sum(counts.values(), collections.Counter())))


if __name__ == "__main__":
    main()
