"""What `ffi3 explain` tells of the images that ffi3's own caller leaves, as they are and with one byte turned.

Its answer, whole, is compared with another reading of docs/RULES.md, section 11, from the places that `place` prints:
by that reading the byte belongs to a value, and another value is told; or it is one that an image must have so, as an
extension or an address, and the image is refused at that place; or it is free, and nothing changes.
"""

import copy
import json
import subprocess
from concurrent.futures import ThreadPoolExecutor
from random import Random

import batch
import cases
import places
from signature import SIZES, is_narrow, value_text



def place_name(target, place):
    return f"stack{place.number}" if place.kind == "s" else places.named(target, f"{place}+0").removesuffix("+0")


def held(image, place):
    """The bytes of a place, from its first on: eight of a register."""
    if place.kind == "s":
        return image.stack[image.link + place.number:]
    return (image.general if place.kind == "g" else image.floating)[place.number]


def digits(word):
    return f"{int.from_bytes(word, 'little'):016x}"


class Refused(Exception):
    """The line of a refusal, without `ffi3: `."""


def judge(image, what, place, wants):
    """A place holds the doubleword that is wanted."""
    holds = held(image, place)[:len(wants)]
    if holds != wants:
        raise Refused(f"{what}: {place_name(image.target, place)} holds {digits(holds)}, wants {digits(wants)}")


def judge_address(image, what, stand):
    """The place of an address holds that of its bytes in the caller's frame."""
    address = image.sp + image.link + stand.copy
    judge(image, what, stand.reference, (address % (1 << 64)).to_bytes(8, "little"))


def wanted(target, kind, layout, leaves, piece, holds):
    """The doubleword of a piece in which these leaves stand: free bits are as it has them; a packed place has none."""
    found = bytearray(holds)
    for at, byte in cases.leaf_bytes(kind, layout, leaves):
        if piece.offset <= at < piece.offset + piece.length:
            found[at - piece.offset] = byte
    if is_narrow(kind):
        return cases.extended(target, kind, leaves[0])[:len(holds)]
    if target == "riscv" and piece.place.kind == "f" and piece.length == 4:
        found[4:] = b"\xff" * 4
    return bytes(found)


def read(image, signature, i, layout, stand):
    """Argument i's leaves as an image has them."""
    kind, what = signature.arguments[i], f"arg {i}"
    if stand.reference:
        judge_address(image, what, stand)
        value = image.stack[image.link + stand.copy:]
        return [value[at:at + SIZES[leaf]] for at, leaf in zip(layout.offsets, layout.leaves)]
    value = {}
    for piece in stand.pieces:
        for k, byte in enumerate(held(image, piece.place)[:piece.length]):
            value.setdefault(piece.offset + k, byte)
    leaves = [bytes(value[at + k] for k in range(SIZES[leaf])) for at, leaf in zip(layout.offsets, layout.leaves)]
    for piece in stand.pieces:
        if piece.length <= 8:
            is_packed = cases.is_packed(image.target, signature, i, piece)
            holds = held(image, piece.place)[:piece.length if is_packed else 8]
            judge(image, what, piece.place, wanted(image.target, kind, layout, leaves, piece, holds))
    return leaves


def answer(image, signature, plan, layouts):
    """The status, the output and the fault lines of `explain`."""
    lines = []
    try:
        for i, (kind, stand) in enumerate(zip(signature.arguments, plan.arguments)):
            leaves = read(image, signature, i, layouts[kind], stand)
            lines.append(f"arg {i} {value_text(kind, iter(leaves))}\n")
        if plan.result.reference:
            judge_address(image, "hidden", plan.result)
            lines.append(f"hidden {image.sp + image.link + plan.result.copy:#x}\n")
        if plan.vectors is not None:
            judge(image, "count", places.Place("g", places.GENERAL[image.target]["rax"]),
                  plan.vectors.to_bytes(8, "little"))
    except Refused as fault:
        return 1, "", f"ffi3: {fault}\n"
    return 0, "".join(lines), ""


# ---- which bytes an image is read by: (kind of place, number, byte), where a stack's byte is (s, offset from sp, 0),
# and one of the stack pointer is (p, 0, byte)

IN_A_REGISTER, ON_THE_STACK, IN_A_COPY = "a value in a register", "a value on the stack", "a copy"
EXTENSION, SECOND, ADDRESS = "an extension", "the second register of a value", "the address of a copy"
HIDDEN, COUNT = "the address of a hidden result", "the number of vector registers"
POINTER, FREE = "the stack pointer", "a byte that is free"
KINDS = [IN_A_REGISTER, ON_THE_STACK, IN_A_COPY, EXTENSION, SECOND, ADDRESS, HIDDEN, COUNT, POINTER, FREE]


def bytes_at(image, place, start, count):
    if place.kind == "s":
        return [("s", image.link + place.number + start + k, 0) for k in range(count)]
    return [(place.kind, place.number, start + k) for k in range(count)]


def read_bytes(image, signature, plan, layouts):
    """The bytes of an image by what they are, where they are not free."""
    found = {kind: [] for kind in KINDS}
    for i, (kind, stand) in enumerate(zip(signature.arguments, plan.arguments)):
        layout = layouts[kind]
        inside = [at + k for at, leaf in zip(layout.offsets, layout.leaves) for k in range(SIZES[leaf])]
        if stand.reference:
            found[ADDRESS] += bytes_at(image, stand.reference, 0, 8)
            found[IN_A_COPY] += [each for at in inside
                                 for each in bytes_at(image, places.Place("s", stand.copy), at, 1)]
            continue
        seen = set()
        for piece in stand.pieces:
            own = [at for at in inside if piece.offset <= at < piece.offset + piece.length]
            what = SECOND if seen & {*own} else ON_THE_STACK if piece.place.kind == "s" else IN_A_REGISTER
            seen |= {*own}
            found[what] += [each for at in own for each in bytes_at(image, piece.place, at - piece.offset, 1)]
            is_boxed = image.target == "riscv" and piece.place.kind == "f" and piece.length == 4
            if (is_narrow(kind) and not cases.is_packed(image.target, signature, i, piece)) or is_boxed:
                found[EXTENSION] += bytes_at(image, piece.place, piece.length, 8 - piece.length)
    if plan.result.reference:
        found[HIDDEN] += bytes_at(image, plan.result.reference, 0, 8)
    if found[ADDRESS] or found[HIDDEN]:
        found[POINTER] += [("p", 0, byte) for byte in range(8)]
    if plan.vectors is not None:
        found[COUNT] += bytes_at(image, places.Place("g", places.GENERAL[image.target]["rax"]), 0, 8)
    taken = {each for those in found.values() for each in those}
    every = [(kind, k, byte) for kind in "gf" for k in range(32) for byte in range(8)]
    every += [("s", at, 0) for at in range(len(image.stack))] + [("p", 0, byte) for byte in range(8)]
    found[FREE] = [each for each in every if each not in taken]
    return {kind: those for kind, those in found.items() if those}


def turned(image, where, by):
    """The image with a byte turned."""
    kind, at, byte = where
    wrong = copy.copy(image)
    if kind == "p":
        wrong.sp ^= by << 8 * byte
        return wrong
    if kind == "s":
        wrong.stack = image.stack[:at] + bytes([image.stack[at] ^ by]) + image.stack[at + 1:]
        return wrong
    registers = [*(image.general if kind == "g" else image.floating)]
    word = bytearray(registers[at])
    word[byte] ^= by
    registers[at] = bytes(word)
    setattr(wrong, "general" if kind == "g" else "floating", registers)
    return wrong


def drawn(image, number, signature, plan, layouts, seed):
    """A byte of an image and what it is, and the bits that are turned; the kinds come alike often."""
    random = Random(f"{seed} {number} turned")
    found = read_bytes(image, signature, plan, layouts)
    kind = random.choice(list(found))
    return kind, random.choice(found[kind]), random.choice([1, 0x80, random.randint(1, 255)])


def told(program, image, signature):
    ended = subprocess.run([*program, "explain"], input=json.dumps(image.described(signature)), text=True,
                           capture_output=True)
    return ended.returncode, ended.stdout, ended.stderr


def difference(program, image, signature, plan, layouts, given=None):
    """What `explain` answers to an image, or to the one that it is given in its place, in place of what the other
    reading does; nothing where they agree."""
    wants = answer(image, signature, plan, layouts)
    has = told(program, given or image, signature)
    return "" if has == wants else f"explain: {has}, wanted {wants}"


def failures(program, own, planned, layouts, seed):
    """What `explain` tells otherwise: (number, way) -> reasons, none where it agrees. The ways are explained and
    turned. And how many bytes of each kind were turned."""
    def compared(case):
        number, (signature, plan) = case
        image = own[number][0]
        kind, where, by = drawn(image, number, signature, plan, layouts, seed)
        wrong = turned(image, where, by)
        return {(number, "explained"): difference(program, image, signature, plan, layouts),
                (number, "turned"): difference(program, wrong, signature, plan, layouts)}, kind

    found, kinds = {}, dict.fromkeys(KINDS, 0)
    with ThreadPoolExecutor(batch.JOBS) as pool:
        for each, kind in pool.map(compared, planned.items()):
            found |= each
            kinds[kind] += 1
    return found, kinds


# ---- planted errors: the program is given another image than the one that is turned, so that it answers as one would
# that does not judge what was turned; or that judges a byte which is free

def found_at(program, own, planned, layouts, seed, kind):
    """The number of signatures, from the first, until a program that does not look at a byte of this kind, or that
    looks at one that is free, answers otherwise; None where none does."""
    for number, (signature, plan) in planned.items():
        image = own[number][0]
        known = read_bytes(image, signature, plan, layouts)
        random = Random(f"{seed} {number} {kind}")
        if kind not in known or (kind == FREE and len(known) == 1):
            continue
        by = random.randint(1, 255)
        wrong, given = turned(image, random.choice(known[kind]), by), image
        if kind == FREE:
            other = random.choice([each for each in known if each != FREE])
            given = turned(image, random.choice(known[other]), by)
        if difference(program, wrong, signature, plan, layouts, given):
            return number + 1
    return None


def planted(target):
    """The kinds of bytes that images of a target have."""
    left = {"amd64": [SECOND, ADDRESS, IN_A_COPY], "aapcs64": [SECOND, COUNT], "riscv": [SECOND, COUNT],
            "win64": [COUNT], "apple": [SECOND, COUNT]}[target]
    return [kind for kind in KINDS if kind not in left]
