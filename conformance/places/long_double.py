"""What a long double is by a target's compilers, and the complex numbers of C: layouts, and places by `ffi3 cplace`.

A long double is x87's extended format, of 16 bytes, ten of them a value's; or binary128; or a double. GCC for Windows
has the first; the target win64, which is Microsoft's, the last: so of GCC's each long double is told to the program as
an integer of 128 bits, by which it goes.
"""

import re
import subprocess
from concurrent.futures import ThreadPoolExecutor

import batch
from declared import prototype
from places import Layout, plan_of
from signature import COMPLEX, OF_C_ALONE, VALUE_BYTES, Array, Signature, elements_of

COMPILERS = {"amd64": ("gcc", "clang", "clang-16"), "aapcs64": ("gcc", "clang"), "riscv": ("gcc", "clang"),
             "win64": ("mingw", "clang-msvc"), "apple": ("clang", "clang-16")}
FORMATS = {"amd64": "x87", "aapcs64": "binary128", "riscv": "binary128", "win64": "double", "apple": "double"}
ROOM = VALUE_BYTES | {"x87": 16}  # the bytes that a scalar takes, which are its alignment too
TOLD_TO_MINGW = "uint128"
SECONDS = 60


def format_of(target, compiler):
    return "x87" if compiler == "mingw" else FORMATS[target]


def has_any(kind):
    """Whether a type has a long double or a complex number."""
    return kind in OF_C_ALONE or any(map(has_any, set(elements_of(kind))))


def exchanged(kind, of):
    """A type with each long double and complex number by what a function says of it."""
    if kind in OF_C_ALONE:
        return of(kind)
    if isinstance(kind, Array):
        return Array(exchanged(kind.element, of), kind.count)
    return kind if isinstance(kind, str) else tuple(exchanged(element, of) for element in kind)


def in_signature(signature, of):
    return Signature(exchanged(signature.result, of), tuple(exchanged(kind, of) for kind in signature.arguments),
                     signature.fixed)


def by_format(name, target):
    """What is known of a long double or a complex number: a complex one is two of its parts, a struct of two; but of
    x87's format, which AMD64 alone passes otherwise, an array."""
    def of(kind):
        if kind not in COMPLEX:
            return name
        part = {"floatcomplex": "float", "doublecomplex": "double", "longcomplex": name}[kind]
        return Array(part, 2) if part == "x87" and target == "amd64" else (part, part)
    return of


def resolved(signature, target, compiler):
    return in_signature(signature, by_format(format_of(target, compiler), target))


def told(signature, compiler):
    """The prototype that the program is told."""
    return prototype(in_signature(signature, by_format(TOLD_TO_MINGW, "win64")) if compiler == "mingw" else signature)


def layout_of(kind):
    """C's layout of a type that is known."""
    if isinstance(kind, str):
        return Layout(ROOM[kind], ROOM[kind], (0,), (kind,)) if kind != "void" else Layout(0, 1, (), ())
    end, align, offsets, leaves = 0, 1, [], []
    for inner in map(layout_of, elements_of(kind)):
        start = -(-end // inner.align) * inner.align
        offsets += [start + at for at in inner.offsets]
        leaves += inner.leaves
        end, align = start + inner.size, max(align, inner.align)
    return Layout(-(-end // align) * align, align, tuple(offsets), tuple(leaves))


def ask(program, text):
    ended = subprocess.run([*program, "cplace"], input=text, capture_output=True, text=True, timeout=SECONDS)
    if ended.returncode:
        raise ValueError(f"{text}\n{ended.stderr}")
    return ended.stdout


class Answers:
    """What `cplace` answers of signatures, of all targets at once; it is asked when it is needed."""

    def __init__(self, program, signatures):
        self.program, self.signatures, self.asked = program, signatures, {}

    def plans(self, target, compiler):
        """Where each is placed on a target, as a compiler has its long doubles."""
        as_mingw = compiler == "mingw"
        if as_mingw not in self.asked:
            texts = [told(signature, compiler) for signature in self.signatures]
            with ThreadPoolExecutor(batch.JOBS) as pool:
                self.asked[as_mingw] = list(pool.map(lambda text: ask(self.program, text), texts))
        return [plan_in(answer, target) for answer in self.asked[as_mingw]]


def plan_in(answer, target):
    """The plan of one target, in an answer that has those of all."""
    lines = answer.split(f"\ntarget {target}\n")[1].split("\ntarget ")[0].splitlines()
    return plan_of(target, [re.sub(r"^(arg \d+) \w+: ", r"\1 ", line) for line in lines])
