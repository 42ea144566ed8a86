"""Compiles signatures once for a target and compiler, and runs cases of them in one process.

libffi counts as one more compiler of the host's target: see `libffi.c`.
"""

import itertools
import pathlib
import re
import subprocess
from concurrent.futures import ThreadPoolExecutor

import cases
import coff
import differences
import installed
import macho
from emit import C_NAMES, C_NAMES_OF_WINDOWS, Chunk, index_of
from places import FLOATING, GENERAL, Layout
from signature import VALUE_BYTES, text_of

HERE = pathlib.Path(__file__).resolve().parent
IN_A_CHUNK = 200
JOBS = 2  # processes at a time
SECONDS = 3600
PLAN = "plan: "  # begins the reason where a plan is wrong by itself

# The GNU prefix of a target, the emulator that runs its programs (none on the host), and what clang is told.
TARGETS = {
    "amd64": ("x86_64-linux-gnu", None, []),
    "aapcs64": ("aarch64-linux-gnu", "qemu-aarch64", []),
    "riscv": ("riscv64-linux-gnu", "qemu-riscv64", ["-march=rv64gc", "-mabi=lp64d"]),
    "win64": ("x86_64-linux-gnu", None, []),
    "apple": ("aarch64-linux-gnu", "qemu-aarch64", []),
}
# libffi counts as a compiler for each of the conventions that it has on AMD64; so each is named here, as ffi.h does.
ABIS = {"libffi-unix64": "FFI_UNIX64", "libffi-win64": "FFI_WIN64", "libffi-gnuw64": "FFI_GNUW64"}
COMPILERS = {"amd64": ("gcc", "clang", "libffi-unix64"), "aapcs64": ("gcc", "clang"), "riscv": ("gcc", "clang"),
             "win64": ("gcc", "clang", "libffi-win64", "libffi-gnuw64"), "apple": ("clang", "clang-16")}
# What plays a call and an entry, where it is another target's.
PLAYED_BY = {"apple": "aapcs64"}
FLAGS = ["-w", "-Wno-psabi", "-std=gnu11", "-fno-pie", "-fno-stack-protector"]
# Defined on a target that is played as another is: player.h and tools/try_calls.c say what it changes.
DEFINED = {"win64": ["-DWIN64"], "apple": ["-DAPPLE"]}
# A leaf's scalar, by what C knows of it: the kind of player.h, and its bytes.
KINDS = {"double": "f", "x87": "f", "binary128": "f"}
SCALARS = {f"{KINDS.get(name, name[0])}{size}": name for name, size in VALUE_BYTES.items()}
# Compilers for Windows, beside those for Linux that have its convention; the second has Microsoft's long double.
OF_WINDOWS = {"mingw": ["x86_64-w64-mingw32-gcc"], "clang-msvc": ["clang", "--target=x86_64-pc-windows-msvc"]}
# The files of one batch are optimised in turn: not at all, and much; with an even seed the other way round.
OPTIMISED = ["-O0", "-O2"]


def flags_of(target, compiler="gcc"):
    of_windows = coff.FLAGS if compiler in OF_WINDOWS else []
    return [*FLAGS, *DEFINED.get(target, []), *of_windows, f"-I{HERE}"]


def command_of(target, compiler):
    prefix, _, flags = TARGETS[target]
    if compiler in OF_WINDOWS:
        return OF_WINDOWS[compiler]
    if compiler == "gcc":
        return [f"{prefix}-gcc"]
    return [compiler, *macho.FLAGS] if target == "apple" else [compiler, f"--target={prefix}", *flags]


def missing(target, compiler):
    """The packages that this target and compiler need and that are not installed."""
    prefix, emulator, _ = TARGETS[target]
    headers = f"/usr/{prefix}/include" if emulator else "/usr/include"
    needed = [f"{prefix}-gcc", f"{headers}/stdio.h", *([emulator] if emulator else [])]
    return installed.missing(*needed, "ffi.h" if compiler in ABIS else command_of(target, compiler)[0])


def libffi_version():
    """The version that libffi's header names."""
    words = [*command_of("amd64", "gcc"), "-E", "-C", "-"]
    ended = subprocess.run(words, input="#include <ffi.h>\n", capture_output=True, text=True)
    found = re.search(r"libffi (\d\S*)", ended.stdout)
    return found[1]


def version_of(target, compiler):
    if compiler in ABIS:
        return f"libffi {libffi_version()}, {ABIS[compiler]}"
    lines = subprocess.run([*command_of(target, compiler), "--version"], capture_output=True, text=True).stdout
    return lines.splitlines()[0]


class Played:
    """A program that plays cases: `command` runs it, `types` has the types of its lines `layout`, chunk by chunk.
    After a run `layouts` has its layouts of each type, and `dumps` and `returns` what player.c dumps at each entry and
    at each return, by the number of its signature."""

    def play(self, lines):
        """Runs the cases; gives (number, direction) -> reasons for those that were played: none where one passed."""
        try:
            told = subprocess.run(self.command, input=lines.encode(), stdout=subprocess.PIPE, timeout=SECONDS).stdout
        except subprocess.TimeoutExpired as late:
            told = late.stdout or b""
        self.layouts, self.dumps, self.returns, played = {}, {}, {}, {}
        types = list(map(iter, self.types))
        for line in told.decode().splitlines():
            words = line.split()
            if words[0] == "layout":
                size, align, *leaves = words[2:]
                offsets, scalars = zip(*(leaf.split(":") for leaf in leaves))
                layout = Layout(int(size), int(align), tuple(map(int, offsets)), tuple(map(SCALARS.get, scalars)))
                self.layouts.setdefault(next(types[int(words[1])]), set()).add(layout)
            elif words[0] == "dumped":
                self.dumps[int(words[1])] = words[2:]
            elif words[0] == "returned":
                self.returns[int(words[1])] = words[2:]
            elif words[0] in ("passed", "failed"):
                played[int(words[1]), words[2]] = " ".join(words[3:])
        return played

    def show(self, lines):
        """Runs one case that has a line `show`: each byte by its place: a name (REG, ref REG, stackN) and a byte."""
        ended = subprocess.run(self.command, input=lines, text=True, stdout=subprocess.PIPE, timeout=SECONDS)
        shown = [line.split() for line in ended.stdout.splitlines() if line.startswith("shown ")]
        if not shown:
            return {}
        base = int(shown[0][1], 16)
        general, floating, stack = map(bytes.fromhex, shown[0][2:])
        words = {name: general[8 * k:8 * k + 8] for name, k in GENERAL[self.target].items()}
        words |= {name: floating[8 * k:8 * k + 8] for name, k in FLOATING[self.target].items()}
        stacked = {f"stack{k}": stack[k:k + 8] for k in range(0, len(stack), 8)}
        found = {(name, k): byte for name, word in words.items() for k, byte in enumerate(word)}
        for name, word in (words | stacked).items():
            start = int.from_bytes(word, "little") - base
            if 0 <= start < len(stack):
                found |= {(f"ref {name}", k): byte for k, byte in enumerate(stack[start:])}
        return found | {(name, k): byte for name, word in stacked.items() for k, byte in enumerate(word)}


def link(target, program, files):
    """Links the player and these files by the target's gcc; static, so that an emulator needs no libraries."""
    kind = ["-no-pie"] if files[-1] == "-lffi" else ["-static"]
    subprocess.run([*command_of(target, "gcc"), *flags_of(target), "-O1", *kind, "-o", program, HERE / "player.c",
                    HERE / f"{PLAYED_BY.get(target, target)}.S", *files], check=True)


def compiled(target, compiler, folder, name, optimised):
    """Makes the object NAME.o of NAME.c in a folder. The words name no folder, so that a cache of compilers (ccache)
    knows the file again."""
    words = [*command_of(target, compiler), *flags_of(target, compiler), optimised]
    translated = macho if target == "apple" else coff if compiler in OF_WINDOWS else None
    if not translated:
        subprocess.run([*words, "-c", "-o", f"{name}.o", f"{name}.c"], check=True, cwd=folder)
        return
    subprocess.run([*words, "-S", "-o", f"{name}.assembly", f"{name}.c"], check=True, cwd=folder)
    (folder / f"{name}.s").write_text(translated.in_elf((folder / f"{name}.assembly").read_text()))
    subprocess.run([*command_of(target, "gcc"), "-c", "-o", f"{name}.o", f"{name}.s"], check=True, cwd=folder)


class Compiled(Played):
    """Signatures as compiled for one target by one compiler, in a folder of their own."""

    def __init__(self, target, compiler, signatures, folder, optimised):
        self.target, self.compiler, self.folder = target, compiler, pathlib.Path(folder)
        self.folder.mkdir(parents=True, exist_ok=True)
        starts = range(0, len(signatures), IN_A_CHUNK)
        c_names = C_NAMES_OF_WINDOWS if compiler in OF_WINDOWS else C_NAMES
        chunks = [Chunk(number, signatures[start:start + IN_A_CHUNK], c_names) for number, start in enumerate(starts)]
        self.types = [chunk.types for chunk in chunks]
        names = [f"chunk_{chunk.number}" for chunk in chunks]
        for name, chunk in zip(names, chunks):
            (self.folder / f"{name}.c").write_text(chunk.text())
        (self.folder / "index.c").write_text(index_of([len(signatures[start:start + IN_A_CHUNK]) for start in starts]))
        with ThreadPoolExecutor(JOBS) as pool:
            list(pool.map(self.compile, names, itertools.cycle(optimised)))
        program = self.folder / "play"
        files = [HERE / coff.CALLED] if compiler in OF_WINDOWS else []
        link(target, program, [*files, self.folder / "index.c", *(self.folder / f"{name}.o" for name in names)])
        emulator = TARGETS[target][1]
        self.command = [*([emulator] if emulator else []), program]

    def compile(self, name, optimised):
        compiled(self.target, self.compiler, self.folder, name, optimised)


class Libffi(Played):
    """The host's libffi: closures are the callees, ffi_call is the caller. It has no type for an array, so each is
    written as its elements."""

    def __init__(self, target, compiler, signatures, folder):
        self.target, self.compiler, self.folder = target, compiler, pathlib.Path(folder)
        self.folder.mkdir(parents=True, exist_ok=True)
        program, listed = self.folder / "play", self.folder / "signatures"
        listed.write_text("".join(f"{signature.with_elements()}\n" for signature in signatures))
        link(target, program, [f"-DABI={ABIS[compiler]}", HERE / "libffi.c", "-lffi"])
        self.types = [[kind for signature in signatures for kind in signature.types() if kind != "void"]]
        self.command = [program, listed]


def built(target, compiler, signatures, folder, optimised):
    if compiler in ABIS:
        return Libffi(target, compiler, signatures, folder)
    return Compiled(target, compiler, signatures, folder, optimised)


def optimised(seed):
    """How the files are optimised, in turn: what an odd seed has not at all, an even one has much."""
    return OPTIMISED if seed % 2 else OPTIMISED[::-1]


def optimised_at(index, seed):
    """How the file is optimised that has a signature, by its number."""
    return optimised(seed)[index // IN_A_CHUNK % len(OPTIMISED)]


def failures(built, planned, layouts, seed):
    """What each comparison finds: (number, way) -> reasons, none where it passes. The ways are call, enter, layout.

    `planned` has signatures and their plans, by the signatures' numbers. A case that was not played fails. Where a
    listed difference says that this compiler has another plan, that one is played."""
    parts, found = [], {}
    for number, (signature, plan) in planned.items():
        plan = differences.played(built.target, built.compiler, signature, plan)
        try:
            parts.append(cases.lines_of(built.target, number, signature, plan, layouts, seed))
        except cases.Uncovered as fault:
            found[number, "call"] = found[number, "enter"] = f"{PLAN}{fault}"
    played = built.play("".join(parts))
    for number, (signature, _) in planned.items():
        for way in ("call", "enter"):
            found.setdefault((number, way), played.get((number, way), "not run"))
        found[number, "layout"] = layout_failure(built, signature, layouts)
    return found


def layout_failure(built, signature, layouts):
    """What differs first in the layouts of a signature's types; nothing where they are those of the program."""
    for kind in signature.types():
        theirs = built.layouts.get(kind)
        if kind != "void" and theirs != {layouts[kind]}:
            return f"{text_of(kind)}: {theirs or 'not told'}, ffi3 has {layouts[kind]}"
    return ""
