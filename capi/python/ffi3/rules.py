"""The rules of placing by which a value stands where it does: sentences of docs/RULES.md, sections 6 to 9.

Which rule it was is told from where the value stands and from its type. tools/check_headers compares each sentence with
the document.
"""

from collections.abc import Sequence
from typing import NamedTuple

from .library import HIDDEN, RESULT, Call, Part, Piece, Type

SECTIONS = {"amd64": (6, "System V AMD64"), "aapcs64": (7, "Arm AAPCS64"), "riscv": (8, "RISC-V LP64D"),
            "win64": (9, "Microsoft x64"), "apple": (7, "Apple arm64")}


class Rule(NamedTuple):
    """A rule as RULES.md names it in its table, and its sentence there."""

    name: str
    says: str


RULES = {
    "amd64": {
        "registers": Rule("1", "An INTEGER eightbyte takes the next of rdi, rsi, rdx, rcx, r8, r9, an SSE eightbyte "
                               "the next of xmm0 to xmm7."),
        "reverted": Rule("2", "If no registers are left for any eightbyte of an argument, the whole argument is passed "
                              "on the stack and takes no register."),
        "memory": Rule("3", "Class MEMORY is passed on the stack, and so are X87, X87UP and COMPLEX_X87."),
        "result": Rule("results", "An INTEGER eightbyte is returned in the next of rax, rdx, an SSE eightbyte in the "
                                  "next of xmm0, xmm1."),
        "x87": Rule("results", "X87 and X87UP are returned in st(0); COMPLEX_X87 in st(0), its real part, and st(1), "
                               "its imaginary part."),
        "hidden": Rule("results", "For class MEMORY the caller gives space and passes its address in rdi, as a hidden "
                                  "first argument. The address is returned in rax."),
    },
    "aapcs64": {
        "floating": Rule("1", "A float, a double or a binary128 takes the next of v0 to v7; the last fills both "
                              "halves of it. A homogeneous aggregate takes one v register for each leaf, if all fit. "
                              "Otherwise it goes to the stack and no v register is used any more."),
        "copy": Rule("2", "Any other struct of more than 16 bytes is copied by the caller and replaced by a pointer to "
                          "the copy, which is then passed like any pointer."),
        "general": Rule("3", "Another struct takes its size rounded up to 8 in x registers, from x0 to x7, if all fit. "
                             "An integer or pointer takes one, an integer of 128 bits two that follow one another."),
        "stack": Rule("3", "Otherwise the argument goes to the stack and no x register is used any more."),
        "result": Rule("6", "A result stands where a first argument of its type would. One that would be replaced by a "
                            "pointer goes to a buffer of the caller, whose address is in x8."),
    },
    "riscv": {
        "scalar": Rule("integer", "A scalar takes one word, an integer of 128 bits or a binary128 two, the "
                       "lower half first."),
        "struct": Rule("integer", "A struct takes one word up to 8 bytes, and two up to 16 bytes."),
        "copy": Rule("integer", "A larger struct is copied by the caller, and the address of the copy takes one word."),
        "one": Rule("1", "A float, a double, or a struct of exactly one such leaf takes one of fa0 to fa7, if one is "
                         "free."),
        "two": Rule("2", "A struct of exactly two floating leaves takes two, if two are free."),
        "mixed": Rule("3", "A mixed pair takes one fa and one a register, if both are free."),
        "hidden": Rule("results", "One that would be passed by reference goes to a buffer of the caller, whose address "
                                  "is the implicit first argument, in a0."),
    },
    "win64": {
        "general": Rule("1", "An integer or a pointer in one of the first four positions takes rcx, rdx, r8 or r9."),
        "floating": Rule("2", "A float or double there takes xmm0, xmm1, xmm2 or xmm3."),
        "struct": Rule("3", "A struct of 1, 2, 4 or 8 bytes is passed as an integer of its size, also one of a single "
                            "float or double."),
        "copy": Rule("4", "Any other struct is copied by the caller, and the address of the copy is passed as a "
                          "pointer is."),
        "stack": Rule("5", "From the fifth position on an argument, or the address of its copy, stands on the stack: "
                           "that of position p at 8p."),
        "both": Rule("7", "In a variadic signature a float or double in one of the first four positions stands in the "
                          "general register of its position too."),
        "result": Rule("results", "An integer, a pointer and a struct of 1, 2, 4 or 8 bytes are returned in rax, a "
                                  "float or double in xmm0."),
        "hidden": Rule("results", "For any other struct the caller passes the address of a buffer: it takes position "
                                  "0, so it is in rcx, and the arguments begin at position 1. It is returned in rax."),
    },
}
RULES["apple"] = {key: RULES["aapcs64"][key] for key in ("floating", "copy", "general", "result")} | {
    "own": Rule("2", "A named scalar or homogeneous aggregate on the stack begins at the next multiple of its own "
                     "alignment, and takes its own size: two shorts take four bytes, a struct of three floats twelve."),
    "struct": Rule("3", "Any other struct on the stack begins at a multiple of 8, or of 16 where it is aligned to "
                        "that, and takes its size rounded up to 8, also one of 3 or 4 bytes."),
    "address": Rule("3", "The address of a copy takes eight bytes, at a multiple of 8."),
}


def is_floating(place: str) -> bool:
    """Whether a register is a floating or vector register, by its name."""
    return place.startswith(("xmm", "v", "fa"))


def is_homogeneous(kind: Type) -> bool:
    """Whether all leaves are floats, doubles, or of 128 bits, four at most."""
    names = {name for _, name in kind.leaves}
    return len(names) == 1 and names <= {"float", "double", "binary128"} and len(kind.leaves) <= 4


def _amd64(pieces: Sequence[Piece], kind: Type) -> str:
    if pieces[0].place != "stack":
        return "registers"
    has_x87 = any(name == "x87" for _, name in kind.leaves)
    return "memory" if kind.size > 16 or has_x87 else "reverted"


def _aapcs64(pieces: Sequence[Piece], kind: Type) -> str:
    if is_floating(pieces[0].place) or is_homogeneous(kind):
        return "floating"
    if pieces[0].is_address:
        return "copy"
    return "stack" if pieces[0].place == "stack" else "general"


def _apple(pieces: Sequence[Piece], kind: Type) -> str:
    if pieces[0].place != "stack":
        return _aapcs64(pieces, kind)
    if pieces[0].is_address:
        return "address"
    return "own" if not kind.offsets or is_homogeneous(kind) else "struct"


def _riscv(pieces: Sequence[Piece], kind: Type) -> str:
    floating = sum(is_floating(piece.place) for piece in pieces)
    if pieces[0].is_address:
        return "copy"
    if floating:
        return "two" if floating == 2 else "mixed" if len(pieces) == 2 else "one"
    return "struct" if kind.offsets else "scalar"


def _win64(pieces: Sequence[Piece], kind: Type) -> str:
    if pieces[0].place == "stack":
        return "stack"
    if pieces[0].is_address:
        return "copy"
    if len(pieces) == 2:
        return "both"
    return "floating" if is_floating(pieces[0].place) else "struct" if kind.offsets else "general"


_OF_ARGUMENT = {"amd64": _amd64, "aapcs64": _aapcs64, "riscv": _riscv, "win64": _win64, "apple": _apple}


def rule_of(target: str, call: Call, part: Part, kind: Type) -> str:
    """By which of RULES[target] a value of this type stands where it does in a call; of HIDDEN the result's."""
    is_hidden = any(piece.part == HIDDEN for piece in call.pieces)
    if part in (RESULT, HIDDEN):
        if target in ("aapcs64", "apple"):
            return "result"
        if is_hidden:
            return "hidden"
        if any(piece.place in ("st0", "st1") for piece in call.pieces):
            return "x87"
        if target != "riscv":
            return "result"
    return _OF_ARGUMENT[target]([piece for piece in call.pieces if piece.part == part], kind)
