"""Turns a signature's plan into the lines that `player.c` plays, in both directions.

`call`: ffi3's places are the caller's, the callee is compiled. `enter`: the caller is compiled, ffi3's places are the
callee's. What a place holds beside a value's own bytes is docs/RULES.md, sections 5 and 11; all else is random.
"""

from random import Random

from places import X87
from signature import FLOATING, SIZES, VALUE_BYTES, is_narrow, leaves_of

RETURN_ADDRESS_OF_HIDDEN = {"amd64": "g0", "aapcs64": None, "riscv": None, "win64": "g0", "apple": None}
# To how many bytes a target's standard, not ffi3's own profile, says that a narrow integer is extended: compiled code
# must do it too.
EXTENDED_BY_STANDARD = {"amd64": 0, "aapcs64": 0, "riscv": 8, "win64": 0, "apple": 4}
EXTENDED_BY_FFI3 = 8
# What a copy's address is a multiple of too, where the standard asks for more than the argument's type does.
ALIGNED_COPY = {"win64": (16,)}


class Uncovered(Exception):
    """A byte of a value that stands in no piece, or in two that are no copies."""


def values_for(signature, number, seed):
    """Random bytes for each leaf of each argument, and for those of the result: those of a signature by its number."""
    random = Random(f"{seed} {number}")

    def bytes_of(kind):
        return [random.randbytes(VALUE_BYTES[leaf]) for leaf, _ in leaves_of(kind)]
    return [bytes_of(kind) for kind in signature.arguments], bytes_of(signature.result)


def extended(target, kind, value):
    """A lone narrow integer's doubleword: by its sign; on RISC-V by its sign to 32 bits and from there by the sign."""
    number = int.from_bytes(value, "little", signed=kind.startswith("s"))
    if target == "riscv" and kind == "uint32":
        number = int.from_bytes(value, "little", signed=True)
    return (number % (1 << 64)).to_bytes(8, "little")


def leaf_bytes(kind, layout, leaves):
    """The bytes of a value that are no padding, by offset."""
    return [(start + k, byte) for start, leaf in zip(layout.offsets, leaves) for k, byte in enumerate(leaf)]


def runs(pairs):
    """Bytes by offset as (first offset, bytes) with no gap inside."""
    found = []
    for at, byte in pairs:
        if found and found[-1][0] + len(found[-1][1]) == at:
            found[-1][1].append(byte)
        else:
            found.append((at, bytearray([byte])))
    return found


def copies_of(target, kind, pieces):
    """How often pieces have each byte: twice where a floating argument of a variadic signature is in two registers."""
    return 2 if target == "win64" and kind in FLOATING and len(pieces) == 2 else 1


def is_packed(target, signature, i, piece):
    """Whether a scalar argument's place has its own bytes alone: what is behind it may be the next argument's."""
    is_named = signature.fixed is None or i < signature.fixed
    return target == "apple" and is_named and piece.place.kind == "s"


def widened_to(target, signature, i, stand, most):
    """To how many bytes argument i is extended, if it is a narrow integer: no further than its place goes."""
    return 0 if stand.pieces and is_packed(target, signature, i, stand.pieces[0]) else most


def in_pieces(target, kind, layout, leaves, pieces, widened):
    """(place and byte, bytes) for each run of a value's bytes in its pieces, extended to so many bytes."""
    found, covered = [], []
    if is_narrow(kind) and widened > SIZES[kind]:
        found.append((f"{pieces[0].place}+{SIZES[kind]}", extended(target, kind, leaves[0])[SIZES[kind]:widened]))
    for piece in pieces:
        inside = [(at - piece.offset, byte) for at, byte in leaf_bytes(kind, layout, leaves)
                  if piece.offset <= at < piece.offset + piece.length]
        covered += [at + piece.offset for at, _ in inside]
        found += [(f"{piece.place}+{at}", bytes(run)) for at, run in runs(inside)]
        if target == "riscv" and piece.place.kind == "f" and piece.length == 4:
            found.append((f"{piece.place}+4", b"\xff" * 4))
    copies = copies_of(target, kind, pieces)
    if sorted(covered) != [at for at, _ in leaf_bytes(kind, layout, leaves) for _ in range(copies)]:
        raise Uncovered(f"the pieces do not have each byte of {kind} {'twice' if copies == 2 else 'once'}")
    return found


def head(direction, index, plan, values, result):
    """The first lines of a case. A callee has the frame that it finds, which is dumped before all else."""
    lines = [f"{direction} {index}", f"values {b''.join(sum(values, [])).hex()}", f"result {b''.join(result).hex()}"]
    return [*lines, f"frame {plan.frame}"] if direction == "call" else [*lines, "begin", "dump"]


def x87_lines(target, stand):
    """How many x87 registers have a result, where some have."""
    count = sum(piece.place in X87.get(target, ()) for piece in stand.pieces)
    return [f"x87 {count}"] * (count > 0)


def call_lines(target, index, signature, plan, layouts, values, result):
    """ffi3 is the caller."""
    lines = head("call", index, plan, values, result)
    for i, (kind, stand, leaves) in enumerate(zip(signature.arguments, plan.arguments, values)):
        if stand.reference:
            lines.append(f"put_address {stand.reference}+0 {stand.copy}")
            lines += [f"put s{stand.copy + at}+0 {run.hex()}"
                      for at, run in runs(leaf_bytes(kind, layouts[kind], leaves))]
        else:
            widened = widened_to(target, signature, i, stand, EXTENDED_BY_FFI3)
            lines += [f"put {place} {run.hex()}"
                      for place, run in in_pieces(target, kind, layouts[kind], leaves, stand.pieces, widened)]
    if plan.vectors is not None:
        lines.append(f"put g0+0 {plan.vectors.to_bytes(8, 'little').hex()}")
    if plan.result.reference:
        lines.append(f"put_address {plan.result.reference}+0 {plan.result.copy}")
    lines += [*x87_lines(target, plan.result), "go", "dump"]
    return [*lines, *result_lines(target, signature, plan, layouts, result), "end"]


def result_lines(target, signature, plan, layouts, result, widened=None):
    """What the caller looks at when the call has returned; a narrow integer's extension where the standard says it, or
    as is told."""
    kind, stand = signature.result, plan.result
    if stand.reference:
        lines = [f"want s{stand.copy + at}+0 {run.hex()}" for at, run in runs(leaf_bytes(kind, layouts[kind], result))]
        if RETURN_ADDRESS_OF_HIDDEN[target]:
            lines.append(f"want_address {RETURN_ADDRESS_OF_HIDDEN[target]}+0 {stand.copy}")
        return lines
    widened = EXTENDED_BY_STANDARD[target] if widened is None else widened
    return [f"want {place} {run.hex()}"
            for place, run in in_pieces(target, kind, layouts[kind], result, stand.pieces, widened)]


def enter_lines(target, index, signature, plan, layouts, values, result):
    """ffi3 is the callee."""
    lines = head("enter", index, plan, values, result)
    for i, (kind, stand, leaves) in enumerate(zip(signature.arguments, plan.arguments, values)):
        if stand.reference:
            lines += [f"want_aligned {stand.reference}+0 {aligned}"
                      for aligned in (layouts[kind].align, *ALIGNED_COPY.get(target, ()))]
            lines += [f"want_at {stand.reference}+0 {at} {run.hex()}"
                      for at, run in runs(leaf_bytes(kind, layouts[kind], leaves))]
        else:
            widened = widened_to(target, signature, i, stand, EXTENDED_BY_STANDARD[target])
            lines += [f"want {place} {run.hex()}" for place, run
                      in in_pieces(target, kind, layouts[kind], leaves, stand.pieces, widened)]
    if plan.vectors is not None and signature.fixed is not None:
        lines.append(f"want_between g0+0 {plan.vectors} 8")
    kind, stand = signature.result, plan.result
    if stand.reference:
        lines.append(f"want_aligned {stand.reference}+0 {layouts[kind].align}")
    lines += ["go", *x87_lines(target, stand)]
    if stand.reference:
        lines += [f"put_at {stand.reference}+0 {at} {run.hex()}"
                  for at, run in runs(leaf_bytes(kind, layouts[kind], result))]
        if RETURN_ADDRESS_OF_HIDDEN[target]:
            lines.append(f"put_copy {RETURN_ADDRESS_OF_HIDDEN[target]}+0 {stand.reference}+0")
    else:
        lines += [f"put {place} {run.hex()}"
                  for place, run in in_pieces(target, kind, layouts[kind], result, stand.pieces, EXTENDED_BY_FFI3)]
    return [*lines, "end"]


def lines_of(target, index, signature, plan, layouts, seed):
    """The lines of both directions, or of none and what is wrong with the plan itself."""
    values, result = values_for(signature, index, seed)
    return "\n".join(call_lines(target, index, signature, plan, layouts, values, result)
                     + enter_lines(target, index, signature, plan, layouts, values, result)) + "\n"
