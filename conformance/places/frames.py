"""Frames that compiled callers make: what `ffi3 arguments` tells of them, beside the values that were passed.

At each entry player.c dumps registers and stack before it looks at any place. The dump goes as it is through the
program, as the description of an image (docs/FORMATS.md, section 11). This module knows no place.
"""

import copy
import itertools
import json
import subprocess
from concurrent.futures import ThreadPoolExecutor
from dataclasses import dataclass

import batch
import cases
import differences
from places import LINK
from signature import object_of, value_text


@dataclass
class Image:
    """What a machine of a target is at an entry or a return. Registers are their bytes as memory has them. At an entry
    `link` bytes lie between the stack pointer and the caller's frame, at a return none."""

    target: str
    sp: int
    general: list
    floating: list
    stack: bytes
    link: int

    def described(self, signature):
        """The description of an image, which is read by this signature."""
        return {"target": self.target, "sig": object_of(signature), "sp": f"{self.sp:016x}",
                "general": [word[::-1].hex() for word in self.general],
                "floating": [word[::-1].hex() for word in self.floating], "stack": self.stack.hex()}


def words_of(registers):
    return [registers[at:at + 8] for at in range(0, len(registers), 8)]


def read(target, words, link):
    sp, *rest = words
    general, floating, stack = map(bytes.fromhex, [*rest, ""][:3])
    return Image(target, int(sp, 16), words_of(general), words_of(floating), stack, link)


def dumped(built, number):
    """The image that player.c dumps of a signature's compiled caller."""
    return read(built.target, built.dumps[number], LINK[built.target])


def returned(built, number):
    """The image that player.c dumps where a signature's compiled callee has returned."""
    return read(built.target, built.returns[number], 0)


def told(program, image):
    """The status of `arguments`, its output and its fault lines."""
    ended = subprocess.run([*program, "arguments"], input=json.dumps(image), text=True, capture_output=True)
    return ended.returncode, ended.stdout, ended.stderr


def wrong_in(program, image, signature, values):
    """What `arguments` does not tell of an image as it was passed, as one reason; nothing where it tells all."""
    status, lines, faults = told(program, image)
    if status:
        return f"arguments: status {status}: {faults.strip()}"
    wanted = [f"arg {i} {value_text(kind, iter(leaves))}"
              for i, (kind, leaves) in enumerate(zip(signature.arguments, values))]
    pairs = itertools.zip_longest(lines.splitlines(), wanted)
    return "; ".join(f"the callee finds another argument {i}" for i, (line, want) in enumerate(pairs) if line != want)


def image_at(built, number, signature, plan):
    """The description of the image that a signature's compiled caller leaves."""
    read_by = differences.read_by(built.target, built.compiler, signature, plan)
    return dumped(built, number).described(read_by)


def failures(program, built, planned, seed):
    """What `arguments` tells wrongly: (number, way) -> reasons, none where it tells what was passed."""
    def answer(case):
        number, (signature, plan) = case
        if number not in built.dumps:
            return (number, "frame"), "not run"
        values, _ = cases.values_for(signature, number, seed)
        return (number, "frame"), wrong_in(program, image_at(built, number, signature, plan), signature, values)

    with ThreadPoolExecutor(batch.JOBS) as pool:
        return dict(pool.map(answer, planned.items()))


# ---- planted errors: each changes the description of an image

GENERAL = {"amd64": (7, 6), "aapcs64": (0, 1), "riscv": (10, 11), "win64": (1, 2), "apple": (0, 1)}


def first_two_exchanged(image):
    """The first two registers of arguments are exchanged."""
    a, b = GENERAL[image["target"]]
    image["general"][a], image["general"][b] = image["general"][b], image["general"][a]


def lowest_digits_first(image):
    """A vector register has its lowest byte first."""
    image["floating"] = [bytes.fromhex(word)[::-1].hex() for word in image["floating"]]


def stack_a_word_late(image):
    """The stack's bytes are those from eight bytes above the stack pointer on."""
    image["stack"] = image["stack"][16:]


def stack_pointer_above(image):
    """The stack pointer is eight higher than it is."""
    image["sp"] = f"{int(image['sp'], 16) + 8:016x}"


def sign_lost(image):
    """A sint32 is a uint32."""
    image["sig"]["args"] = ["uint32" if kind == "sint32" else kind for kind in image["sig"]["args"]]


def dots_lost(image):
    """A variadic signature is taken for one that is not."""
    image["sig"].pop("fixed", None)


def address_is_no_argument(image):
    """The address of a hidden result takes no place."""
    if not isinstance(image["sig"]["ret"], str):
        image["sig"]["ret"] = "void"


EVERYWHERE = [first_two_exchanged, lowest_digits_first, stack_a_word_late, sign_lost]
ERRORS = {
    "amd64": [*EVERYWHERE, address_is_no_argument],
    "aapcs64": [*EVERYWHERE, stack_pointer_above],
    "riscv": [*EVERYWHERE, stack_pointer_above, dots_lost, address_is_no_argument],
    "win64": [*EVERYWHERE, stack_pointer_above, address_is_no_argument],
    "apple": [*EVERYWHERE, stack_pointer_above, dots_lost],
}


def found_at(program, built, planned, seed, error):
    """The number of signatures, from the first, until an image that is changed by the error is not read as what was
    passed; None where none is."""
    for number, (signature, plan) in planned.items():
        image = image_at(built, number, signature, plan)
        wrong = copy.deepcopy(image)
        error(wrong)
        if wrong != image and wrong_in(program, wrong, signature, cases.values_for(signature, number, seed)[0]):
            return number + 1
    return None
