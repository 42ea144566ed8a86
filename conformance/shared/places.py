"""Asks the program for layouts and places, and reads its lines (docs/FORMATS.md, section 4)."""

import json
import re
import subprocess
from dataclasses import dataclass, field
from pathlib import Path

from signature import script_of

PROGRAM = Path(__file__).resolve().parent.parent.parent / "crates/ffi3/out/ffi3"
LONGEST_SCRIPT = 1 << 20

GENERAL = {
    "amd64": {name: number for number, name in enumerate("rax rcx rdx rbx rsp rbp rsi rdi r8 r9 r10 r11".split())},
    "aapcs64": {f"x{number}": number for number in range(31)},
    "riscv": {f"a{number}": 10 + number for number in range(8)},
}
GENERAL |= {"win64": GENERAL["amd64"], "apple": GENERAL["aapcs64"]}
# The bytes of the return address between the stack pointer of an entry and the first stack argument.
LINK = {"amd64": 8, "aapcs64": 0, "riscv": 0, "win64": 8, "apple": 0}
# On AMD64 the player has the upper halves of vector registers as further ones. No place of ffi3 has bytes there. Behind
# the 32 it has on AMD64 st(0) and st(1), and on AArch64 the upper halves of v0 to v7.
UPPER = 16
BEHIND = 32
FLOATING = {
    "amd64": {f"xmm{number}": number for number in range(16)}
    | {f"xmm{number}_upper": UPPER + number for number in range(16)} | {"st0": BEHIND, "st1": BEHIND + 2},
    "aapcs64": {f"v{number}": number for number in range(32)},
    "riscv": {f"fa{number}": 10 + number for number in range(8)},
}
FLOATING |= {"win64": FLOATING["amd64"], "apple": FLOATING["aapcs64"]}


@dataclass(frozen=True)
class Place:
    """kind "g" or "f" and a register's number, or kind "s" and an offset from the first stack argument."""

    kind: str
    number: int

    def __str__(self):
        return f"{self.kind}{self.number}"


@dataclass(frozen=True)
class Piece:
    """Bytes offset to offset + length of a value, in the low bytes of a place. A stack piece may be long."""

    place: Place
    offset: int
    length: int


X87 = {"amd64": (Place("f", BEHIND), Place("f", BEHIND + 2))}


@dataclass
class Stand:
    """Where an argument or a result stands: in pieces, or (by reference) its address in `reference`, its bytes at
    `copy` from the frame's start."""

    pieces: list = field(default_factory=list)
    reference: Place | None = None
    copy: int = 0


@dataclass
class Plan:
    """The lines of one signature."""

    lines: list
    frame: int
    vectors: int | None
    arguments: list
    result: Stand


@dataclass(frozen=True)
class Layout:
    """Size, alignment, and from the left the offset of each leaf and its scalar."""

    size: int
    align: int
    offsets: tuple
    leaves: tuple


def scripts_of(signatures):
    """The signatures in runs, each short enough for one script."""
    start = 0
    while start < len(signatures):
        end = min(start + 4000, len(signatures))
        while len(text := json.dumps(script_of(signatures[start:end]), separators=(",", ":"))) >= LONGEST_SCRIPT:
            end = start + (end - start) // 2
        yield start, end, text
        start = end


def lines_of(program, words, signatures):
    """The program's lines for the signatures, as one list a signature."""
    found = []
    for start, end, script in scripts_of(signatures):
        ended = subprocess.run([*program, *words], input=script, text=True, stdout=subprocess.PIPE, check=True)
        groups = [[] for _ in range(start, end)]
        number = None
        for line in ended.stdout.splitlines():
            if match := re.match(r"sig (\d+) ", line):
                number = int(match[1])
            groups[number].append(line)
        if not all(groups):
            raise ValueError(f"{program} {words} writes no line for a signature")
        found += groups
    return found


def place_of(target, text):
    if text.startswith("stack"):
        return Place("s", int(text[len("stack"):]))
    if text in GENERAL[target]:
        return Place("g", GENERAL[target][text])
    return Place("f", FLOATING[target][text])


def named(target, text):
    """A text with the player's places written by name: g10+0 is a0 on RISC-V, s16+2 is stack16+2."""
    names = {("g", number): name for name, number in GENERAL[target].items()}
    names |= {("f", number): name for name, number in FLOATING[target].items()}

    def name_of(match):
        kind, number, byte = match[1], int(match[2]), int(match[3])
        return names.get((kind, number), f"stack{number}") + (f"+{byte}" if byte else "")

    return re.sub(r"\b([gfs])(\d+)\+(\d+)", name_of, text)


def stand_of(target, words):
    if words[0] in ("ref", "hidden"):
        return Stand(reference=place_of(target, words[1]), copy=int(words[3]))
    if words == ["void"]:
        return Stand()
    pieces = []
    for word in words:
        name, offset, length = re.fullmatch(r"(\w+):(\d+)\+(\d+)", word).groups()
        pieces += halves(target, Piece(place_of(target, name), int(offset), int(length)))
    return Stand(pieces)


def halves(target, piece):
    """A piece, or, where it fills a vector register of AArch64, the two of it."""
    place, offset, length = piece.place, piece.offset, piece.length
    if length <= 8 or place.kind != "f" or place in X87.get(target, ()):
        return [piece]
    return [Piece(place, offset, 8), Piece(Place("f", BEHIND + place.number), offset + 8, length - 8)]


def plan_of(target, lines):
    head = lines[0].split()
    numbers = dict(zip(head[::2], map(int, head[1::2])))
    rows = [line.split() for line in lines[1:]]
    if [row[:2] for row in rows[:-1]] != [["arg", str(i)] for i in range(len(rows) - 1)] or rows[-1][0] != "ret":
        raise ValueError(f"not the lines of one signature: {lines}")
    return Plan(lines, numbers["frame"], numbers.get("rax"), [stand_of(target, row[2:]) for row in rows[:-1]],
                stand_of(target, rows[-1][1:]))


def plans(program, target, signatures):
    """The plan of each signature, as `place` prints it."""
    return [plan_of(target, lines) for lines in lines_of(program, ["place", "--target", target], signatures)]


def layouts(program, signatures):
    """The layout of each type of the signatures, as `layout` prints it, in a dict by type."""
    found = {"void": Layout(0, 1, (), ())}
    for signature, lines in zip(signatures, lines_of(program, ["layout"], signatures)):
        for kind, line in zip(signature.types(), lines, strict=True):
            if kind != "void":
                size, align, leaves = re.search(r" size (\d+) align (\d+) leaves (.*)$", line).groups()
                offsets, names = zip(*(leaf.split(":") for leaf in leaves.split()))
                layout = Layout(int(size), int(align), tuple(map(int, offsets)), names)
                if found.setdefault(kind, layout) != layout:
                    raise ValueError(f"two layouts of {kind}")
    return found
