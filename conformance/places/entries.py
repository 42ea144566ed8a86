"""What ffi3's own caller and callee leave beside what compiled ones do, on every bit that the standard fixes.

A script calls a function of each signature, and entries_test tells what the machine was at each entry and at each
return. The bits are those that player.c looks at in what a compiled caller or callee leaves: so a value's own bytes,
and where the standard says it, how a narrow integer is extended and a float boxed; the second register of a value that
stands in two; al within bounds.
"""

import copy
import json
import re
import subprocess
from dataclasses import dataclass

import cases
import differences
import places
from frames import GENERAL, Image, dumped, returned, words_of
from places import LINK, LONGEST_SCRIPT
from signature import SIZES, is_narrow, json_value, object_of

CALLS = 40  # of one script
# docs/RULES.md, section 11: what a callee keeps, general and floating registers; and what neither side writes.
KEPT = {
    "amd64": ([3, 5, 12, 13, 14, 15], []), "aapcs64": ([*range(19, 30)], [*range(8, 16)]),
    "riscv": ([8, 9, *range(18, 28)], [8, 9, *range(18, 28)]), "win64": ([3, 5, 7, 6, 12, 13, 14, 15], [*range(6, 16)]),
}
KEPT["apple"] = KEPT["aapcs64"]
RESERVED = {"amd64": [], "aapcs64": [18], "riscv": [0, 3, 4], "win64": [], "apple": [18]}


def script_of(signatures, values):
    """A script whose main calls a function of each signature once, with these values, and is given this result."""
    functions = [{"name": f"f{i}", "sig": i, "body": [{"return": None if each.result == "void" else
                                                       json_value(each.result, iter(result))}]}
                 for i, (each, (_, result)) in enumerate(zip(signatures, values))]
    moves = []
    for i, (each, (passed, _)) in enumerate(zip(signatures, values)):
        arguments = [json_value(kind, iter(leaves)) for kind, leaves in zip(each.arguments, passed)]
        moves += [{"make": f"f{i}", "as": f"p{i}"}, {"call": {"res": f"p{i}"}, "sig": i, "args": arguments}]
    return {"version": 2, "signatures": list(map(object_of, signatures)), "functions": functions,
            "main": [*moves, {"return": None}]}


def scripts_of(signatures, seed):
    """The numbers of signatures in runs, each with a script that calls them and is short enough."""
    start = 0
    while start < len(signatures):
        numbers = range(start, min(start + CALLS, len(signatures)))
        while True:
            called = [signatures[number] for number in numbers]
            values = [cases.values_for(signatures[number], number, seed) for number in numbers]
            text = json.dumps(script_of(called, values), separators=(",", ":"))
            if len(text) < LONGEST_SCRIPT:
                break
            numbers = numbers[:len(numbers) // 2]
        yield numbers, text
        start = numbers.stop


def images(program, target, signatures, seed):
    """The images that ffi3's caller leaves of these signatures, and its callee, by their numbers."""
    def image(words, link):
        sp, *registers, stack = words
        general, floating = ([word[::-1] for word in words_of(bytes.fromhex(text))] for text in registers)
        return Image(target, int(sp, 16), general, floating, bytes.fromhex(stack), link)

    found = {}
    for numbers, script in scripts_of(signatures, seed):
        ended = subprocess.run([*program, "run", "--target", target], input=script, text=True, stdout=subprocess.PIPE,
                               check=True)
        rows = [line.split(" ") for line in ended.stdout.splitlines()]
        if [row[0] for row in rows] != ["entry", "leave"] * len(numbers):
            raise ValueError(f"{program} tells no entry and no return of a call")
        for number, entry, back in zip(numbers, rows[::2], rows[1::2]):
            found[number] = image(entry[1:], LINK[target]), image(back[1:], 0)
    return found


def bytes_at(image, place, count, at=None):
    """Bytes of a place as player.c has them, g7+0, f3+4 or s16+0; with `at`, so far on from the address there. They are
    fewer where the image ends before."""
    kind, number, byte = re.fullmatch(r"([gfs])(\d+)\+(\d+)", place).groups()
    start = int(byte)
    if kind == "s":
        held, start = image.stack, start + image.link + int(number)
    else:
        held = (image.general if kind == "g" else image.floating)[int(number)]
    if at is not None:
        held, start = image.stack, int.from_bytes(held[start:start + 8], "little") + at - image.sp
    return held[start:start + count] if start >= 0 else b""


def other(name, digits, *seen):
    """What is wrong with the bytes that two images have at a place, as many as these digits say: one does not reach so
    far, or they differ."""
    if any(2 * len(each) != len(digits) for each in seen):
        return f"not all bytes at {name}"
    return f"other bytes at {name}" if seen[0] != seen[1] else ""


def wrong_at_entry(line, ours, theirs):
    """What ffi3's caller leaves otherwise than a compiled one, of what a line of player.c looks at, as that says it. An
    address is each caller's own, and what stands there is compared; what the standard only bounds is so in both."""
    word, place, *rest = line.split(" ")
    if word == "want":
        return other(place, rest[0], *(bytes_at(image, place, len(rest[0]) // 2) for image in (ours, theirs)))
    if word == "want_at":
        return other(place, rest[1], *(bytes_at(image, place, len(rest[1]) // 2, int(rest[0]))
                                       for image in (ours, theirs)))
    found = int.from_bytes(bytes_at(ours, place, 8), "little")
    if word == "want_aligned":
        return f"the address at {place} is no multiple of {rest[0]}" if found % int(rest[0]) else ""
    return "" if int(rest[0]) <= found % 256 <= int(rest[1]) else f"{place} is {found % 256}, not {' to '.join(rest)}"


def wrong_at_return(target, signature, plan, layouts, result, own, theirs):
    """What ffi3's callee leaves otherwise than a compiled one, of what player.c looks at when a call has returned; and
    of what it keeps from its entry, and how it extends a narrow integer by its own rule. Each callee is given an
    address for a hidden result by its caller, and the result must be there."""
    (entry, ours), stand = own, plan.result
    for line in cases.result_lines(target, signature, plan, layouts, result):
        word, place, digits = line.split(" ")
        name, count = place, len(digits) // 2
        if word == "want_address":
            wanted = bytes_at(entry, f"{stand.reference}+0", 8)
            yield "" if bytes_at(ours, place, 8) == wanted else f"another address at {place}"
        elif stand.reference:
            at = int(place.removeprefix("s").removesuffix("+0")) - stand.copy
            buffer = int.from_bytes(bytes_at(entry, f"{stand.reference}+0", 8), "little")
            start = buffer + at - ours.sp
            yield other(name, digits, ours.stack[start:start + count] if start >= 0 else b"",
                        bytes_at(theirs, place, count))
        else:
            yield other(name, digits, *(bytes_at(image, place, count) for image in (ours, theirs)))
    for line in [] if stand.reference else cases.result_lines(target, signature, plan, layouts, result, cases.EXTENDED_BY_FFI3):
        _, place, digits = line.split(" ")
        yield "" if bytes_at(ours, place, len(digits) // 2).hex() == digits else f"not the result at {place}"
    general, floating = KEPT[target]
    for name, numbers, held, before in (("g", general + RESERVED[target], ours.general, entry.general),
                                        ("f", floating, ours.floating, entry.floating)):
        yield from (f"{name}{number} is not kept" for number in numbers if held[number] != before[number])
    if ours.sp != entry.sp + LINK[target]:
        yield "the stack pointer is not kept"


def failures(own, built, planned, layouts, seed):
    """What ffi3's caller and callee leave otherwise than this compiler's: (number, way) -> reasons, none where nothing
    differs. Where a listed difference has another plan nothing is compared."""
    found = {}
    for number, (signature, plan) in planned.items():
        values, result = cases.values_for(signature, number, seed)
        is_played = differences.played(built.target, built.compiler, signature, plan) == plan
        wrong = [] if number in built.dumps else ["not run"]
        if not wrong and is_played:
            entry = own[number][0]
            lines = cases.enter_lines(built.target, number, signature, plan, layouts, values, result)
            wrong = [wrong_at_entry(line, entry, dumped(built, number))
                     for line in lines[:lines.index("go")] if line.startswith("want")]
            if (entry.sp + LINK[built.target]) % 16:
                wrong.append("the stack pointer is not a multiple of 16 at the call")
        found[number, "own"] = "; ".join(filter(None, wrong))
        wrong = [] if number in built.returns else ["not run"]
        if not wrong and is_played:
            wrong = wrong_at_return(built.target, signature, plan, layouts, result, own[number],
                                    returned(built, number))
        found[number, "back"] = "; ".join(filter(None, wrong))
    return found


# ---- planted errors: each changes the image of ffi3's caller

def first_two_exchanged(image, signature, plan):
    """The first two registers of arguments are exchanged."""
    a, b = GENERAL[image.target]
    image.general[a], image.general[b] = image.general[b], image.general[a]


def vectors_exchanged(image, signature, plan):
    """The first two floating registers of arguments are exchanged."""
    a = places.FLOATING[image.target].get("fa0", 0)
    image.floating[a], image.floating[a + 1] = image.floating[a + 1], image.floating[a]


def stack_a_word_late(image, signature, plan):
    """The stack's bytes are those from eight bytes above the stack pointer on."""
    image.stack = image.stack[8:]


def stack_pointer_above(image, signature, plan):
    """The stack pointer is eight higher than it is."""
    image.sp += 8


def buffer_at_an_odd_address(image, signature, plan):
    """The address of a hidden result is one higher."""
    if plan.result.reference:
        number = plan.result.reference.number
        image.general[number] = (int.from_bytes(image.general[number], "little") + 1).to_bytes(8, "little")


def fill_above(image, place, size, byte):
    """The bytes of a place above the first `size` are this one. A packed place has none."""
    def filled(word):
        return word[:size] + byte * (8 - size)

    if place.kind == "s" and image.target == "apple":
        return
    if place.kind == "s":
        at = LINK[image.target] + place.number
        image.stack = image.stack[:at] + filled(image.stack[at:at + 8]) + image.stack[at + 8:]
    else:
        registers = image.general if place.kind == "g" else image.floating
        registers[place.number] = filled(registers[place.number])


def narrow(signature, plan):
    return [(stand.pieces[0].place, SIZES[kind]) for kind, stand in zip(signature.arguments, plan.arguments)
            if is_narrow(kind)]


def no_vectors_counted(image, signature, plan):
    """al is 0."""
    image.general[0] = bytes(8)


def nine_vectors_counted(image, signature, plan):
    """al is 9."""
    image.general[0] = b"\x09" + bytes(7)


def extended_by_zeros(image, signature, plan):
    """A narrow integer is zero-extended."""
    for place, size in narrow(signature, plan):
        fill_above(image, place, size, b"\0")


def not_extended(image, signature, plan):
    """A narrow integer in a register is not extended."""
    for place, size in narrow(signature, plan):
        if place.kind == "g":
            fill_above(image, place, size, b"\x5a")


def not_extended_on_the_stack(image, signature, plan):
    """A narrow integer on the stack is not extended."""
    for place, size in narrow(signature, plan):
        if place.kind == "s":
            fill_above(image, place, size, b"\x5a")


def not_boxed(image, signature, plan):
    """A float in a floating register has zeros above it."""
    for stand in plan.arguments:
        for piece in stand.pieces:
            if piece.place.kind == "f" and piece.length == 4:
                fill_above(image, piece.place, 4, b"\0")


def vector_register_alone(image, signature, plan):
    """A floating argument of a variadic signature is not in its general register."""
    for stand in plan.arguments:
        if len(stand.pieces) == 2:
            fill_above(image, stand.pieces[0].place, 0, b"\0")


def address_moved(image, signature, plan):
    """The address of a copy is 16 higher."""
    for stand in plan.arguments:
        if stand.reference and stand.reference.kind == "g":
            number = stand.reference.number
            moved = int.from_bytes(image.general[number], "little") + 16
            image.general[number] = moved.to_bytes(8, "little")


def a_byte_over_a_packed_argument(image, signature, plan):
    """A narrow integer on the stack is written with one more byte, which is the next one's."""
    for place, size in narrow(signature, plan):
        if place.kind == "s":
            at = LINK[image.target] + place.number + size
            image.stack = image.stack[:at] + b"\x5a" + image.stack[at + 1:]


EVERYWHERE = [first_two_exchanged, vectors_exchanged, stack_a_word_late, stack_pointer_above, buffer_at_an_odd_address]
ERRORS = {
    "amd64": [*EVERYWHERE, no_vectors_counted, nine_vectors_counted],
    "aapcs64": [*EVERYWHERE, address_moved],
    "riscv": [*EVERYWHERE, extended_by_zeros, not_extended, not_extended_on_the_stack, not_boxed, address_moved],
    "win64": [*EVERYWHERE, vector_register_alone, address_moved],
    "apple": [*EVERYWHERE, extended_by_zeros, not_extended, a_byte_over_a_packed_argument, address_moved],
}
# What a compiler cannot show, since it does so itself: see differences.py, and libffi's extension is its own.
UNSEEN = {("riscv", "clang"): [not_extended_on_the_stack]}


# ---- planted errors: each changes the image of ffi3's callee

RESULTS = {"amd64": (0, 2), "aapcs64": (0, 1), "riscv": (10, 11), "apple": (0, 1)}


def result_in_the_other_register(image, signature, plan):
    """The first two registers of results are exchanged, on Microsoft x64 rax and xmm0."""
    if image.target == "win64":
        image.general[0], image.floating[0] = image.floating[0], image.general[0]
    else:
        a, b = RESULTS[image.target]
        image.general[a], image.general[b] = image.general[b], image.general[a]


def result_extended_by_zeros(image, signature, plan):
    """A narrow result is zero-extended."""
    if is_narrow(signature.result):
        fill_above(image, plan.result.pieces[0].place, SIZES[signature.result], b"\0")


def result_not_extended(image, signature, plan):
    """A narrow result is not extended."""
    if is_narrow(signature.result):
        fill_above(image, plan.result.pieces[0].place, SIZES[signature.result], b"\x5a")


def result_not_boxed(image, signature, plan):
    """A float is handed back with zeros above it."""
    for piece in plan.result.pieces:
        if piece.place.kind == "f" and piece.length == 4:
            fill_above(image, piece.place, 4, b"\0")


def buffer_a_word_late(image, signature, plan):
    """A hidden result begins eight bytes below its buffer."""
    image.stack = image.stack[8:]


def address_not_handed_back(image, signature, plan):
    """The address of a hidden result is not handed back."""
    if plan.result.reference:
        image.general[0] = bytes(8)


def register_not_kept(image, signature, plan):
    """A callee-saved general register is another."""
    number = KEPT[image.target][0][-1]
    image.general[number] = bytes(8)


def vector_not_kept(image, signature, plan):
    """A callee-saved floating register is another."""
    number = KEPT[image.target][1][0]
    image.floating[number] = bytes(8)


def stack_pointer_of_the_entry(image, signature, plan):
    """The stack pointer is eight below what it is to be."""
    image.sp -= 8


OF_EACH_CALLEE = [result_in_the_other_register, result_extended_by_zeros, result_not_extended, buffer_a_word_late,
                  register_not_kept, stack_pointer_of_the_entry]
ERRORS_OF_RETURNS = {
    "amd64": [*OF_EACH_CALLEE, address_not_handed_back],
    "aapcs64": [*OF_EACH_CALLEE, vector_not_kept],
    "riscv": [*OF_EACH_CALLEE, result_not_boxed, vector_not_kept],
    "win64": [*OF_EACH_CALLEE, address_not_handed_back, vector_not_kept],
    "apple": [*OF_EACH_CALLEE, vector_not_kept],
}


# ---- planted errors: each changes the images of both sides

@dataclass
class Seen:
    """What is looked at of a compiler's side."""

    target: str
    compiler: str
    dumps: dict
    returns: dict


def no_stack(image, dump, signature, plan):
    """Neither image has a byte of stack."""
    image.stack = b""
    return [*dump[:3], ""]


ERRORS_OF_BOTH = [no_stack]


def errors(target, compiler):
    """The errors of an entry, of a return and of both sides, each with the way that must find it."""
    found = [(error, "own") for error in ERRORS[target] if error not in UNSEEN.get((target, compiler), [])]
    found += [(error, "back") for error in ERRORS_OF_RETURNS[target]]
    return found + [(error, way) for error in ERRORS_OF_BOTH for way in ("own", "back")]


def found_at(own, built, planned, layouts, seed, error, way):
    """The number of signatures, from the first, until images that the error changes differ in this way; None where none
    does."""
    side = way == "back"
    for number, case in planned.items():
        wrong = copy.deepcopy(own[number])
        seen = Seen(built.target, built.compiler, {number: built.dumps[number]}, {number: built.returns[number]})
        if error in ERRORS_OF_BOTH:
            dumps = seen.returns if side else seen.dumps
            dumps[number] = error(wrong[side], dumps[number], *case)
        else:
            error(wrong[side], *case)
        if wrong != own[number] and failures({number: wrong}, seen, {number: case}, layouts, seed)[number, way]:
            return number + 1
    return None
