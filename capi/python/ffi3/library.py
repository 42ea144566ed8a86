"""The C library's calls: where C's calling standards put the arguments and the result of a function, how types are laid
out, and what a machine that entered a function holds.

What declares a function is a text in C, or nodes, which are data: the names of kinds, structs and arrays in front of
what is in them. The library is the one that FFI3_LIBRARY names, or capi/out/libffi3.so of the repository in which this
file stands, or that of the system. It is loaded when this module is, and is all that the module keeps.
"""

import ctypes
import ctypes.util
import math
import os
import struct
from collections.abc import Iterable, Mapping, Sequence
from functools import lru_cache
from operator import index
from pathlib import Path
from typing import NamedTuple, NoReturn, Union

# An argument's number, or one of the names behind TARGETS. A node, as place_nodes has it. A scalar's value.
Part = Union[int, str]
Node = Union[str, int, tuple[Union[str, int], int]]
Scalar = Union[int, float]

TARGETS = ("amd64", "aapcs64", "riscv", "win64", "apple")
RESULT = "result"
HIDDEN = "hidden"

(_OK, _TOO_SMALL, _NOT_DECLARED, _UNKNOWN_TARGET, _UNKNOWN_VALUE, _OUT_OF_MEMORY, _SHORT_STACK, _NOT_IN_STACK,
 _WRONG_SIZE, _HIGH_STACK, _NOT_PREPARED, _NO_ADDRESS) = range(12)
# Kinds of fault that a client may want to tell apart from others.
UNEXPECTED, LEFT_OUT_LONG_DOUBLE, LAID_OUT_OTHERWISE = 3, 6, 20
_RESULT, _HIDDEN = 0xFFFFFFFF, 0xFFFFFFFE
_NOT_VARIADIC = 0xFFFFFFFF
_MOST_32, _MOST_64 = (1 << 32) - 1, (1 << 64) - 1
_ADDRESS = 1
_GENERAL, _FLOATING, _STACK, _X87 = range(4)
_RESTS = ("free", "extended", "extended by 32", "ones", "none")
_KINDS = ("uint8", "sint8", "uint16", "sint16", "uint32", "sint32", "uint64", "sint64", "uint128", "sint128", "float",
          "double", "pointer")
# Of leaves these are two more, in which a long double stands: x87's ten bytes, of 16, and IEEE 754's binary128.
_LEAF_KINDS = {**dict(enumerate(_KINDS)), 21: "x87", 22: "binary128"}
_SIZES = dict(zip((*_KINDS, "x87", "binary128"), (1, 1, 2, 2, 4, 4, 8, 8, 16, 16, 4, 8, 8, 10, 16)))
_NODE_KINDS = (*_KINDS, "void", "complex float", "complex double", "long double", "complex long double", "vector",
               "struct", "array")
_NUMBER_OF_KIND = {name: number for number, name in enumerate(_NODE_KINDS)}
MOVES = ("store", "load", "collect", "give", "hidden")
_MOVE_KINDS = ("bytes", "zero", "sign", "ones", "number", "address", "behind")
_NOWHERE = 0xFFFFFFFFFFFFFFFF
FRAME_AT = 576  # where in an exchange the frame begins
_EXPECTED = ("type", "name", "number", ")", ",", ";", "end", "*", "]", "}", "{", "(", "[", "...", "word")
_REASONS = (None, "attribute", "keyword", "struct", "union", "enum", "named")


# Of the library that this module knows, as FFI3_VERSION of ffi3.h.
VERSION = 300


class VersionError(ImportError):
    """A library that has not what this module wants of one: both versions, of 1.2.3 10203, and the library's file."""

    def __init__(self, found: int, wanted: int, path: str):
        super().__init__(f"{path} has version {_shown(found)}, and this package wants {_shown(wanted)}, or a later one "
                         f"with the same first number", name="ffi3", path=path)
        self.found = found
        self.wanted = wanted


class Error(ValueError):
    """A text, or nodes, that declare no function that can be called: the kind of the fault, where it is, and how much
    is too much, as struct ffi3_fault of ffi3.h has them."""

    def __init__(self, words: str, kind: int, offset: int, number: int = 0):
        super().__init__(words)
        self.kind = kind
        self.offset = offset
        self.number = number


class Unexpected(NamedTuple):
    """What is told of a place of a text that is unexpected, offsets and lengths in bytes.

    length is how many bytes the token takes that stands there, 0 at the end of the text. reason says why it does not
    fit, where a word tells it: an "attribute", a "keyword"; or that before it stands by value a "struct", "union" or
    "enum" by its tag, or a type "named" otherwise, of which there are pointers alone. expected has what could have
    stood there, the first four of all: marks by themselves, and "type", "name", "number", "end" of the text or one more
    "word" of a type.
    """

    offset: int
    length: int
    reason: str | None
    expected: tuple[str, ...]


class ShortStack(LookupError):
    """Arguments stand beyond the bytes of the stack: at least so many are wanted."""

    def __init__(self, wanted: int, given: int):
        super().__init__(f"{wanted} bytes of the stack are wanted, {given} are there")
        self.wanted = wanted


class NotInStack(LookupError):
    """An argument, or the result, is at an address that is not among the bytes of the stack: which one, and it."""

    def __init__(self, part: Part, address: int):
        name = part if isinstance(part, str) else f"argument {part}"
        super().__init__(f"{name} is at {address:#x}, which is not among the bytes of the stack")
        self.argument = part
        self.address = address


class NoAddress(LookupError):
    """A result is in a buffer of the caller, whose address the standard does not give back."""

    def __init__(self):
        super().__init__("the result is in a buffer of the caller, whose address the standard does not give back")


class Piece(NamedTuple):
    """Where bytes of one value stand, or its address.

    part is an argument's number, "hidden" or "result"; place a register's name, or "stack". On the stack number is the
    offset from the first stack argument. A vector register may have 16 bytes, and st0 and st1 have ten. Of an address,
    offset says where in the caller's frame the value stands. rest is what the rest of a register, or of the last eight
    bytes on the stack, holds: "free", "extended", "extended by 32", "ones" or "none", as ffi3.h says.
    """

    part: Part
    is_address: bool
    place: str
    number: int
    offset: int
    length: int
    rest: str

    def __str__(self) -> str:
        return self.shown(str(self.part))

    def shown(self, name: str) -> str:
        """The piece in words, of a value that is called so."""
        at = f"stack+{self.number}" if self.place == "stack" else self.place
        if self.is_address:
            return f"{name}: {at} has the address of frame+{self.offset}"
        rest = "" if self.rest in ("free", "none") else f", the rest {self.rest}"
        return f"{name}: {at} has bytes {self.offset} to {self.offset + self.length - 1}{rest}"


class Call(NamedTuple):
    """A call as a whole, sizes in bytes. The first of its pieces, as many as passed says, are what a caller passes."""

    need: int
    frame: int
    block: int
    vectors: int
    arguments: int
    passed: int
    pieces: tuple[Piece, ...]

    def __str__(self) -> str:
        return self.shown(tuple(map(str, range(self.arguments))))

    def shown(self, names: Sequence[str]) -> str:
        """The call in words, a line a piece, its arguments by these names."""
        called = dict(enumerate(names))
        return "\n".join([f"frame of {self.frame} bytes",
                          *(each.shown(called.get(each.part, str(each.part))) for each in self.pieces)])


class Layout(NamedTuple):
    """Size and alignment of a type in bytes, and its scalars from the front, each as a pair of offset and name."""

    size: int
    align: int
    leaves: tuple[tuple[int, str], ...]
    arguments: int


class Type(NamedTuple):
    """Size and alignment of a type in bytes, where each member of a struct starts, and its scalars from the front."""

    size: int
    align: int
    offsets: tuple[int, ...]
    leaves: tuple[tuple[int, str], ...]


class Sizes(NamedTuple):
    """The sizes of an interface in bytes, and where in an exchange a hidden result's address is given back, or None."""

    values: int
    result: int
    link: int
    frame: int
    returned: int | None


class Move(NamedTuple):
    """A move, as ffi3.h has it: its kind, as "bytes" or "address", the argument's number, and start for `from`."""

    kind: str
    part: int
    start: int
    to: int
    length: int


class Argument(NamedTuple):
    """One argument that was passed: its bytes, or None where they stand at an address that is not in the stack; and how
    many they are."""

    value: bytes | None
    size: int
    address: int


class _Fault(ctypes.Structure):
    _fields_ = [("kind", ctypes.c_uint32), ("argument", ctypes.c_uint32), ("offset", ctypes.c_size_t),
                ("number", ctypes.c_size_t)]


class _Piece(ctypes.Structure):
    _fields_ = [(name, ctypes.c_uint32)
                for name in ("part", "holds", "place", "number", "offset", "length", "rest")]


class _Call(ctypes.Structure):
    _fields_ = [*((name, ctypes.c_size_t) for name in ("need", "frame", "block", "vectors", "arguments", "pieces",
                                                       "passed")), ("fault", _Fault)]


class _Leaf(ctypes.Structure):
    _fields_ = [("kind", ctypes.c_uint32), ("size", ctypes.c_uint32), ("offset", ctypes.c_size_t)]


class _Layout(ctypes.Structure):
    _fields_ = [*((name, ctypes.c_size_t) for name in ("size", "align", "leaves", "arguments")), ("fault", _Fault)]


class _Checked(ctypes.Structure):
    _fields_ = [("length", ctypes.c_size_t), ("reason", ctypes.c_uint32), ("count", ctypes.c_uint32),
                ("expected", ctypes.c_uint32 * 4), ("reserved", ctypes.c_uint64 * 4), ("fault", _Fault)]


class _Node(ctypes.Structure):
    _fields_ = [("kind", ctypes.c_uint32), ("count", ctypes.c_uint32)]


class _Type(ctypes.Structure):
    _fields_ = [*((name, ctypes.c_size_t) for name in ("size", "align", "members", "leaves")),
                ("reserved", ctypes.c_uint64 * 2), ("fault", _Fault)]


class _Registers(ctypes.Structure):
    _fields_ = [("general", ctypes.c_uint64 * 32), ("floating", ctypes.c_uint64 * 32), ("sp", ctypes.c_uint64),
                ("upper", ctypes.c_uint64 * 8)]


class _Interface(ctypes.Structure):
    _fields_ = [("kept", ctypes.c_void_p)]


class _Sizes(ctypes.Structure):
    _fields_ = [*((name, ctypes.c_size_t) for name in ("values", "result", "link", "frame")),
                ("returned", ctypes.c_uint64), ("reserved", ctypes.c_uint64 * 3)]


class _Reason(ctypes.Structure):
    _fields_ = [("wanted", ctypes.c_size_t), ("address", ctypes.c_uint64), ("argument", ctypes.c_uint32),
                ("reserved", ctypes.c_uint32)]


class _Move(ctypes.Structure):
    _fields_ = [("kind", ctypes.c_uint32), ("part", ctypes.c_uint32), ("from", ctypes.c_uint64),
                ("to", ctypes.c_uint64), ("length", ctypes.c_uint64)]


class _Arguments(ctypes.Structure):
    _fields_ = [*((name, ctypes.c_size_t) for name in ("arguments", "size", "stack")), ("address", ctypes.c_uint64),
                ("argument", ctypes.c_uint32), ("reserved", ctypes.c_uint32), ("fault", _Fault)]


class _Argument(ctypes.Structure):
    _fields_ = [("status", ctypes.c_uint32), ("reserved", ctypes.c_uint32), ("offset", ctypes.c_size_t),
                ("size", ctypes.c_size_t), ("address", ctypes.c_uint64)]


class _Result(ctypes.Structure):
    _fields_ = [("size", ctypes.c_size_t), ("address", ctypes.c_uint64), ("reserved", ctypes.c_uint64 * 2),
                ("fault", _Fault)]


def _shown(version: int) -> str:
    return f"{version // 10000}.{version // 100 % 100}.{version % 100}"


def _load() -> ctypes.CDLL:
    beside = Path(__file__).resolve().parents[2] / "out" / "libffi3.so"
    name = os.environ.get("FFI3_LIBRARY") or (str(beside) if beside.exists() else ctypes.util.find_library("ffi3"))
    if not name:
        raise OSError("libffi3.so is not found: capi/build makes it, where this package is used in its repository, and "
                      "capi/install puts it where programs look; or name it in FFI3_LIBRARY")
    library = ctypes.CDLL(name)
    if not hasattr(library, "ffi3_version"):
        raise OSError(f"{name} is another library: it has no ffi3_version")
    # An older version may have other structs, and is lent none. Later ones with the same first number only add to them.
    library.ffi3_version.restype, library.ffi3_version.argtypes = ctypes.c_uint32, []
    found = library.ffi3_version()
    if found < VERSION or found // 10000 != VERSION // 10000:
        raise VersionError(found, VERSION, name)
    uint32, size, text = ctypes.c_uint32, ctypes.c_size_t, ctypes.c_char_p
    nodes, whole, kept = ctypes.POINTER(_Node), ctypes.POINTER(_Type), ctypes.POINTER(_Interface)
    registers, reason = ctypes.POINTER(_Registers), ctypes.POINTER(_Reason)
    for function, result, parameters in (
        ("place", uint32, [uint32, text, size, ctypes.POINTER(_Call), ctypes.POINTER(_Piece), size]),
        ("place_nodes", uint32, [uint32, nodes, size, uint32, ctypes.POINTER(_Call), ctypes.POINTER(_Piece), size]),
        ("layout_nodes", uint32, [nodes, size, whole, ctypes.POINTER(_Leaf), size]),
        ("offsets_nodes", uint32, [nodes, size, whole, ctypes.POINTER(ctypes.c_size_t), size]),
        ("check_layout", uint32, [nodes, size, size, size, ctypes.POINTER(ctypes.c_size_t), size,
                                  ctypes.POINTER(_Fault)]),
        ("layout", uint32, [text, size, uint32, ctypes.POINTER(_Layout), ctypes.POINTER(_Leaf), size]),
        ("layout_for", uint32, [uint32, text, size, uint32, ctypes.POINTER(_Layout), ctypes.POINTER(_Leaf), size]),
        ("layout_nodes_for", uint32, [uint32, nodes, size, whole, ctypes.POINTER(_Leaf), size]),
        ("offsets_for", uint32, [uint32, nodes, size, whole, ctypes.POINTER(ctypes.c_size_t), size]),
        ("check_for", uint32, [uint32, nodes, size, size, size, ctypes.POINTER(ctypes.c_size_t), size,
                               ctypes.POINTER(_Fault)]),
        ("check_text", uint32, [uint32, text, size, ctypes.POINTER(_Checked)]),
        ("arguments", uint32, [uint32, text, size, registers, text, size, ctypes.POINTER(_Arguments), text, size]),
        ("arguments_each", uint32, [uint32, text, size, registers, text, size, ctypes.POINTER(_Arguments),
                                    ctypes.POINTER(_Argument), size, text, size]),
        ("arguments_nodes", uint32, [uint32, nodes, size, uint32, registers, text, size, ctypes.POINTER(_Arguments),
                                     ctypes.POINTER(_Argument), size, text, size]),
        ("result", uint32, [uint32, text, size, registers, text, size, ctypes.POINTER(_Result), text, size]),
        ("result_nodes", uint32, [uint32, nodes, size, uint32, registers, text, size, ctypes.POINTER(_Result), text,
                                  size]),
        ("prepare", uint32, [uint32, nodes, size, uint32, kept, ctypes.POINTER(_Fault)]),
        ("share", uint32, [kept, kept]),
        ("release", None, [kept]),
        ("sizes", uint32, [kept, ctypes.POINTER(_Sizes)]),
        ("moves", uint32, [kept, uint32, ctypes.POINTER(size), ctypes.POINTER(_Move), size]),
        ("store", uint32, [kept, text, size, registers, text, size]),
        ("load", uint32, [kept, registers, text, size, text, size]),
        ("collect", uint32, [kept, registers, text, size, text, size, reason]),
        ("give", uint32, [kept, text, size, registers, text, size, reason]),
        ("fault_text", size, [ctypes.POINTER(_Fault), text, size]),
        ("fault_lines", size, [uint32, text, size, text, size]),
        ("register_name", size, [uint32, uint32, uint32, text, size]),
    ):
        exported = getattr(library, f"ffi3_{function}")
        exported.restype, exported.argtypes = result, parameters
    return library


_library = _load()


def version() -> str:
    """The library's version, as "0.3.0"."""
    return _shown(_library.ffi3_version())


def _bytes_of(text: str | bytes) -> bytes:
    return text.encode() if isinstance(text, str) else bytes(memoryview(text))


def _target(name: str) -> int:
    if name not in TARGETS:
        raise ValueError(f"no target {name!r}: {', '.join(TARGETS)}")
    return TARGETS.index(name)


def _number(value: int, most: int) -> int:
    """A number for C, where ctypes would drop the bits that C has no room for: in place of one that is negative or too
    great the greatest, which is as wrong to the library."""
    return index(value) if 0 <= index(value) <= most else most


def _word(value: int, what: str, bits: int = 64) -> int:
    """So many bits, of which no other number can take the place."""
    if not 0 <= index(value) < 1 << bits:
        raise ValueError(f"{what}: {value} is no number of {bits} bits")
    return index(value)


def _refuse(status: int, fault: _Fault, value: Part | None = None) -> NoReturn:
    """Raises what a status other than 0 says."""
    if status == _OUT_OF_MEMORY:
        raise MemoryError
    if status == _UNKNOWN_VALUE:
        raise IndexError(f"no argument {value}")
    words = ctypes.create_string_buffer(64)
    _library.ffi3_fault_text(ctypes.byref(fault), words, len(words))
    raise Error(words.value.decode(), fault.kind, fault.offset, fault.number)


def _filled(item, call):
    """What a call leaves in an array that has room: the call is made again where it had none."""
    capacity = 32
    while True:
        array = (item * capacity)()
        status, count = call(array, capacity)
        if status != _TOO_SMALL:
            return status, array[:count]
        capacity = count


@lru_cache(maxsize=512)
def _register(target: int, place: int, number: int) -> str:
    name = ctypes.create_string_buffer(8)
    _library.ffi3_register_name(target, place, number, name, len(name))
    return name.value.decode()


def _part(number: int) -> Part:
    return {_RESULT: RESULT, _HIDDEN: HIDDEN}.get(number, number)


def _placed(target: str, tell) -> Call:
    """A call; tell makes that of the library, with the target's number, the struct and the array with its capacity."""
    number, told = _target(target), _Call()

    def ask(array, capacity):
        return tell(number, ctypes.byref(told), array, capacity), told.pieces

    status, pieces = _filled(_Piece, ask)
    if status != _OK:
        _refuse(status, told.fault)
    found = [Piece(_part(each.part), each.holds == _ADDRESS,
                   "stack" if each.place == _STACK else _register(number, each.place, each.number),
                   each.number, each.offset, each.length, _RESTS[each.rest]) for each in pieces]
    return Call(told.need, told.frame, told.block, told.vectors, told.arguments, told.passed, tuple(found))


def place(target: str, declaration: str | bytes) -> Call:
    """Where everything stands in a call, by a target's standard, of the function that a text declares.

    Raises Error where the text declares none, and another ValueError where there is no such target.
    """
    text = _bytes_of(declaration)
    return _placed(target, lambda number, *into: _library.ffi3_place(number, text, len(text), *into))


def unexpected(target: str, declaration: str | bytes) -> Unexpected | None:
    """What is told of a text that declares no function since something in it is unexpected; None where that is not so.

    place and the others raise an Error with its offset.
    """
    number, text, told = _target(target), _bytes_of(declaration), _Checked()
    status = _library.ffi3_check_text(number, text, len(text), ctypes.byref(told))
    if status == _OUT_OF_MEMORY:
        raise MemoryError
    if told.fault.kind != UNEXPECTED:
        return None
    expected = tuple(_EXPECTED[kind - 1] for kind in told.expected[:told.count])
    return Unexpected(told.fault.offset, told.length, _REASONS[told.reason], expected)


def fault_lines(target: str, declaration: str | bytes) -> str:
    """Why a text declares no function, in lines for a person: the fault, behind "ret: " or "arg J: " where a value has
    it, and where it has a place in the text that line with a "^" below the place. Nothing where the text declares one."""
    number, text, capacity = _target(target), _bytes_of(declaration), 256
    while True:
        lines = ctypes.create_string_buffer(capacity)
        length = _library.ffi3_fault_lines(number, text, len(text), lines, capacity)
        if length < capacity:
            return lines.raw[:length].decode(errors="replace")
        capacity = length + 1


_Pairs = tuple[tuple[int, int], ...]  # of nodes their kinds and counts, as C has them


def _pair_of(node: Node) -> tuple[int, int]:
    kind, count = (node, 0) if isinstance(node, (str, int)) else node
    return _kind(kind), _number(count, _MOST_32)


def _pairs_of(nodes: Iterable[Node]) -> _Pairs:
    return tuple([(_NUMBER_OF_KIND[node], 0) if isinstance(node, str) and node in _NUMBER_OF_KIND else _pair_of(node)
                  for node in nodes])


def _array_of(pairs: _Pairs):
    """An array of nodes, and how many they are."""
    return (_Node * len(pairs))(*pairs), len(pairs)  # type: ignore[misc]  # (ctypes makes a struct of a tuple)


def _nodes_of(nodes: Iterable[Node]):
    return _array_of(_pairs_of(nodes))


def _kind(kind: str | int) -> int:
    if not isinstance(kind, str):
        return _number(kind, _MOST_32)
    if kind not in _NUMBER_OF_KIND:
        raise ValueError(f"no kind of node {kind!r}: {', '.join(_NODE_KINDS)}")
    return _NUMBER_OF_KIND[kind]


def place_nodes(target: str, nodes: Iterable[Node], fixed: int | None = None) -> Call:
    """Where everything stands in a call of the function whose result and arguments are these nodes.

    A node is the name of a kind, or a pair of it and of how many members a struct, or elements an array, has. Of a
    variadic function fixed says how many arguments are named. Raises as place does, and ValueError where a kind has no
    such name; the offset of an Error then says behind how many nodes the fault is.
    """
    return _placed_pairs(target, _pairs_of(nodes), _named(fixed))


# A header asks the same of many functions, and what has been asked is kept.
@lru_cache(maxsize=1 << 12)
def _placed_pairs(target: str, pairs: _Pairs, fixed: int) -> Call:
    array, count = _array_of(pairs)
    return _placed(target, lambda number, *into: _library.ffi3_place_nodes(number, array, count, fixed, *into))


def _named(fixed: int | None) -> int:
    """How many arguments are named, as C is told it."""
    return _NOT_VARIADIC if fixed is None else _number(fixed, _NOT_VARIADIC - 1)


def layout_nodes(nodes: Iterable[Node], target: str | None = None) -> Type:
    """The layout of the one type that these nodes are, as place_nodes has them. Raises Error where they are none.

    All targets lay out alike but for a long double, which is a fault where there is no target.
    """
    return _laid_pairs(_pairs_of(nodes), target)


def _of_target(target: str | None, function, function_for):
    """A function of the library, or, where there is a target, the one of a target with its number in front."""
    if target is None:
        return function
    number = _target(target)
    return lambda *given: function_for(number, *given)


@lru_cache(maxsize=1 << 12)
def _laid_pairs(pairs: _Pairs, target: str | None) -> Type:
    (array, count), told = _array_of(pairs), _Type()
    tell_leaves = _of_target(target, _library.ffi3_layout_nodes, _library.ffi3_layout_nodes_for)
    tell_offsets = _of_target(target, _library.ffi3_offsets_nodes, _library.ffi3_offsets_for)

    def leaves(into, capacity):
        return tell_leaves(array, count, ctypes.byref(told), into, capacity), told.leaves

    def offsets(into, capacity):
        return tell_offsets(array, count, ctypes.byref(told), into, capacity), told.members

    found = []
    for item, ask in ((ctypes.c_size_t, offsets), (_Leaf, leaves)):
        status, items = _filled(item, ask)
        if status != _OK:
            _refuse(status, told.fault)
        found.append(items)
    return Type(told.size, told.align, tuple(found[0]),
                tuple((each.offset, _LEAF_KINDS[each.kind]) for each in found[1]))


def check_layout(nodes: Iterable[Node], size: int, align: int, offsets: Sequence[int] = (),
                 target: str | None = None) -> None:
    """Raises Error where the one type that these nodes are is laid out otherwise, or where they are none."""
    (array, count), fault = _nodes_of(nodes), _Fault()
    starts = (ctypes.c_size_t * len(offsets))(*(_number(each, _MOST_64) for each in offsets))
    checked = _of_target(target, _library.ffi3_check_layout, _library.ffi3_check_for)
    status = checked(array, count, _number(size, _MOST_64), _number(align, _MOST_64), starts, len(starts),
                     ctypes.byref(fault))
    if status != _OK:
        _refuse(status, fault)


def layout(declaration: str | bytes, value: Part = RESULT, target: str | None = None) -> Layout:
    """The layout of an argument, by its number, or of the result, of the function that a text declares.

    Raises Error where the text declares none, also where it has a long double and no target says what that is; and
    IndexError where it has no such argument.
    """
    text, told = _bytes_of(declaration), _Layout()
    tell = _of_target(target, _library.ffi3_layout, _library.ffi3_layout_for)
    number = _number(value, _HIDDEN) if not isinstance(value, str) else _RESULT if value == RESULT else _HIDDEN

    def ask(array, capacity):
        return tell(text, len(text), number, ctypes.byref(told), array, capacity), told.leaves

    status, leaves = _filled(_Leaf, ask)
    if status != _OK:
        _refuse(status, told.fault, value)
    return Layout(told.size, told.align, tuple((each.offset, _LEAF_KINDS[each.kind]) for each in leaves), told.arguments)


# ---- what a machine holds where a function begins

def scalars(leaves: Iterable[tuple[int, str]], held: bytes) -> tuple[Scalar, ...]:
    """The scalars of a value, from its leaves, as a layout has them, and its bytes."""
    return tuple(_scalar(kind, held[at:at + _SIZES[kind]]) for at, kind in leaves)


def _scalar(kind: str, held: bytes) -> Scalar:
    if kind in ("float", "double"):
        return struct.unpack("<f" if kind == "float" else "<d", held)[0]
    number = int.from_bytes(held, "little", signed=kind.startswith("sint"))
    return _long_double(number, kind == "x87") if kind in ("x87", "binary128") else number


def _long_double(bits: int, is_x87: bool) -> float:
    """The double that is nearest to a long double: of x87's format, which has the first bit of its fraction, or
    binary128, which has not."""
    width = 64 if is_x87 else 112
    fraction, exponent, sign = bits % (1 << width), bits >> width & 0x7FFF, -1 if bits >> width + 15 else 1
    if exponent == 0x7FFF:
        return sign * (math.nan if fraction % (1 << 63 if is_x87 else 1 << 112) else math.inf)
    if not is_x87 and exponent:
        fraction += 1 << 112
    try:
        return sign * math.ldexp(fraction, max(exponent, 1) - 16383 - (63 if is_x87 else 112))
    except OverflowError:
        return sign * math.inf


_Words = tuple[tuple[str, int], ...]  # where the words of a register stand in the struct, the lowest first


@lru_cache(maxsize=len(TARGETS))
def _files(number: int) -> dict[str, tuple[int, _Words]]:
    """The registers of a target by their names: how many bits each has, and where."""
    found: dict[str, tuple[int, _Words]] = {}
    for k in range(32):
        found[_register(number, _GENERAL, k)] = 64, (("general", k),)
        found[_register(number, _FLOATING, k)] = 64, (("floating", k),)
    for k in range(8):
        if (name := _register(number, _FLOATING, k)).startswith("v"):
            found[name] = 128, (("floating", k), ("upper", k))
    for k in range(2):
        found[_register(number, _X87, k)] = 80, (("floating", 16 + 2 * k), ("floating", 17 + 2 * k))
    return {name: words for name, words in found.items() if name}


def _named_registers(number: int, values: Mapping[str, int], sp: int) -> _Registers:
    """The registers of a target by their names; those that are not named hold 0."""
    files, found = _files(number), _Registers(sp=_word(sp, "sp"))
    for name, value in values.items():
        if name not in files:
            raise KeyError(f"no register {name}")
        bits, words = files[name]
        for i, (file, k) in enumerate(words):
            getattr(found, file)[k] = _word(value, name, bits) >> 64 * i & _MOST_64
    return found


def arguments(target: str, declaration: str | bytes, registers: Mapping[str, int], sp: int = 0,
              stack: bytes = b"") -> list[tuple[Scalar, ...]]:
    """The arguments that a function was called with, from what the machine held at its first instruction.

    registers has 64 bits for each name, of floating registers the lowest, but of v0 to v7 of 64-bit Arm 128 and of st0
    and st1 80; those that are not named hold 0. stack has the bytes of memory from sp on. Each argument is the tuple of its scalars, a pointer an int. Raises ShortStack
    where the stack has too few bytes and NotInStack where an address points elsewhere, both LookupError; KeyError where
    a name is no register, ValueError where a register holds more bits than it has; otherwise as place does.
    """
    number, text, told = _target(target), _bytes_of(declaration), _Arguments()
    held, stack = _named_registers(number, registers, sp), bytes(memoryview(stack))

    def ask(array, capacity):
        status = _library.ffi3_arguments(number, text, len(text), ctypes.byref(held), stack, len(stack),
                                         ctypes.byref(told), array, capacity)
        return status, told.size

    status, found = _filled(ctypes.c_char, ask)
    if status == _SHORT_STACK:
        raise ShortStack(told.stack, len(stack))
    if status == _NOT_IN_STACK:
        raise NotInStack(told.argument, told.address)
    if status != _OK:
        _refuse(status, told.fault)
    values, start = [], 0
    for i in range(told.arguments):
        kind = layout(declaration, i, target)
        values.append(scalars(kind.leaves, found[start:start + kind.size]))
        start += -(-kind.size // 8) * 8
    return values


def _each(target: str, registers: Mapping[str, int], sp: int, stack: bytes, tell) -> list[Argument]:
    """Each argument; tell makes the library's call, with the target's number and what the machine held."""
    number, told = _target(target), _Arguments()
    held, stack = _named_registers(number, registers, sp), bytes(memoryview(stack))
    each, capacity = (_Argument * 64)(), 256
    while True:
        values = ctypes.create_string_buffer(capacity)
        status = tell(number, ctypes.byref(held), stack, len(stack), ctypes.byref(told), each, len(each), values,
                      capacity)
        if status != _TOO_SMALL:
            break
        capacity = told.size
    if status == _SHORT_STACK:
        raise ShortStack(told.stack, len(stack))
    if status != _OK:
        _refuse(status, told.fault)
    return [Argument(values.raw[one.offset:one.offset + one.size] if one.status == _OK else None, one.size, one.address)
            for one in each[:told.arguments]]


def arguments_each(target: str, declaration: str | bytes, registers: Mapping[str, int], sp: int = 0,
                   stack: bytes = b"") -> list[Argument]:
    """As arguments, each by itself: the bytes of its value, or the address of those that are not in the stack."""
    text = _bytes_of(declaration)
    return _each(target, registers, sp, stack, lambda number, *given: _library.ffi3_arguments_each(
        number, text, len(text), *given))


def arguments_nodes(target: str, nodes: Iterable[Node], registers: Mapping[str, int], sp: int = 0, stack: bytes = b"",
                    fixed: int | None = None) -> list[Argument]:
    """The same of the function whose result and arguments are these nodes, as place_nodes has them, with those that
    stand in the place of its dots."""
    (array, count), named = _nodes_of(nodes), _named(fixed)
    return _each(target, registers, sp, stack, lambda number, *given: _library.ffi3_arguments_nodes(
        number, array, count, named, *given))


# ---- what a machine holds where a function has returned

def _returned(target: str, registers: Mapping[str, int], sp: int, stack: bytes, tell) -> bytes:
    """The bytes of a result; tell makes the library's call, with the target's number and what the machine held."""
    number, told = _target(target), _Result()
    held, stack = _named_registers(number, registers, sp), bytes(memoryview(stack))

    def ask(array, capacity):
        return tell(number, ctypes.byref(held), stack, len(stack), ctypes.byref(told), array, capacity), told.size

    status, found = _filled(ctypes.c_char, ask)
    if status == _NOT_IN_STACK:
        raise NotInStack(RESULT, told.address)
    if status == _NO_ADDRESS:
        raise NoAddress
    if status != _OK:
        _refuse(status, told.fault)
    return found


def result(target: str, declaration: str | bytes, registers: Mapping[str, int], sp: int = 0,
           stack: bytes = b"") -> tuple[Scalar, ...]:
    """What a function gave back, from what the machine held where it had returned: the tuple of the result's scalars.

    registers and stack are as arguments has them. Raises NotInStack where the result is in a buffer of the caller that
    is not among the bytes of the stack, and NoAddress where the standard does not give its address back, both
    LookupError; otherwise as arguments does.
    """
    text = _bytes_of(declaration)
    found = _returned(target, registers, sp, stack, lambda number, *given: _library.ffi3_result(
        number, text, len(text), *given))
    return scalars(layout(declaration, target=target).leaves, found)


def result_nodes(target: str, nodes: Iterable[Node], registers: Mapping[str, int], sp: int = 0, stack: bytes = b"",
                 fixed: int | None = None) -> bytes:
    """The same of the function whose result and arguments are these nodes, as place_nodes has them: the result's bytes.
    """
    (array, count), named = _nodes_of(nodes), _named(fixed)
    return _returned(target, registers, sp, stack, lambda number, *given: _library.ffi3_result_nodes(
        number, array, count, named, *given))


# ---- a call by an interface that is prepared once

def _held(target: int, registers: _Registers) -> dict[str, int]:
    """What the registers of a target hold, by their names."""
    return {name: sum(getattr(registers, file)[k] << 64 * i for i, (file, k) in enumerate(words))
            for name, (_, words) in _files(target).items()}


class Interface:
    """The interface of a function, by a target's standard, whose nodes are as place_nodes has them: prepared once.

    sizes has its sizes. Values are bytes, one argument after another, each from a multiple of 8 on. registers has the
    bits of each name, as arguments has them, and 0 for those that are not named; stack has the bytes of memory from sp on, or as many zeros
    as the call takes. Raises as place_nodes does; ValueError where values, result or stack have not the bytes that
    they take, and NotInStack where an address points past the stack. One thread at a time has it: see share.
    """

    def __init__(self, target: str, nodes: Iterable[Node], fixed: int | None = None):
        self._number, kept, fault = _target(target), _Interface(), _Fault()
        array, count = _nodes_of(nodes)
        status = _library.ffi3_prepare(self._number, array, count, _named(fixed), ctypes.byref(kept),
                                       ctypes.byref(fault))
        if status != _OK:
            _refuse(status, fault)
        self._kept = kept
        self.sizes = self._find_sizes()

    def __del__(self):
        if hasattr(self, "_kept"):
            _library.ffi3_release(ctypes.byref(self._kept))

    def _find_sizes(self) -> Sizes:
        told = _Sizes()
        self._check(_library.ffi3_sizes(ctypes.byref(self._kept), ctypes.byref(told)))
        returned = None if told.returned == _NOWHERE else told.returned
        return Sizes(told.values, told.result, told.link, told.frame, returned)

    def _check(self, status: int, reason: _Reason | None = None) -> None:
        if status == _OUT_OF_MEMORY:
            raise MemoryError
        if status == _NOT_IN_STACK and reason:
            raise NotInStack(_part(reason.argument), reason.address)
        if status != _OK:
            why = {_WRONG_SIZE: "these are not so many bytes as wanted", _SHORT_STACK: "the stack has too few bytes",
                   _HIGH_STACK: "the stack reaches the last address"}
            raise ValueError(why[status])

    def _machine(self, registers: Mapping[str, int] | None, sp: int, stack: bytes | None):
        memory = bytes(self.sizes.link + self.sizes.frame if stack is None else memoryview(stack))
        return _named_registers(self._number, registers or {}, sp), ctypes.create_string_buffer(memory, len(memory))

    def share(self) -> "Interface":
        """Another that keeps the same, for another thread."""
        other = object.__new__(Interface)
        other._kept, other._number, other.sizes = _Interface(), self._number, self.sizes
        self._check(_library.ffi3_share(ctypes.byref(self._kept), ctypes.byref(other._kept)))
        return other

    def moves(self, which: str) -> list[Move]:
        """The moves of one of the lists MOVES."""
        if which not in MOVES:
            raise ValueError(f"no list of moves {which!r}: {', '.join(MOVES)}")
        number, count = MOVES.index(which), ctypes.c_size_t()

        def ask(array, capacity):
            status = _library.ffi3_moves(ctypes.byref(self._kept), number, ctypes.byref(count), array, capacity)
            return status, count.value

        status, found = _filled(_Move, ask)
        self._check(status)
        return [Move(_MOVE_KINDS[each.kind], each.part, getattr(each, "from"), each.to, each.length) for each in found]

    def store(self, values: bytes, registers: Mapping[str, int] | None = None, sp: int = 0,
              stack: bytes | None = None) -> tuple[dict[str, int], bytes]:
        """Registers and stack where the callee begins, from these and the values."""
        held, memory = self._machine(registers, sp, stack)
        values = bytes(memoryview(values))
        self._check(_library.ffi3_store(ctypes.byref(self._kept), values, len(values), ctypes.byref(held), memory,
                                        len(memory)))
        return _held(self._number, held), memory.raw

    def load(self, registers: Mapping[str, int] | None = None, sp: int = 0, stack: bytes | None = None) -> bytes:
        """The result, from registers and stack at the return."""
        held, memory = self._machine(registers, sp, stack)
        result = ctypes.create_string_buffer(self.sizes.result)
        self._check(_library.ffi3_load(ctypes.byref(self._kept), ctypes.byref(held), memory, len(memory), result,
                                       len(result)))
        return result.raw

    def collect(self, registers: Mapping[str, int] | None = None, sp: int = 0, stack: bytes | None = None) -> bytes:
        """The values, from registers and stack where the callee begins."""
        (held, memory), reason = self._machine(registers, sp, stack), _Reason()
        values = ctypes.create_string_buffer(self.sizes.values)
        self._check(_library.ffi3_collect(ctypes.byref(self._kept), ctypes.byref(held), memory, len(memory), values,
                                          len(values), ctypes.byref(reason)), reason)
        return values.raw

    def give(self, result: bytes, registers: Mapping[str, int] | None = None, sp: int = 0,
             stack: bytes | None = None) -> tuple[dict[str, int], bytes]:
        """Registers and stack at the return, from those of the entry and the result."""
        (held, memory), reason = self._machine(registers, sp, stack), _Reason()
        result = bytes(memoryview(result))
        self._check(_library.ffi3_give(ctypes.byref(self._kept), result, len(result), ctypes.byref(held), memory,
                                       len(memory), ctypes.byref(reason)), reason)
        return _held(self._number, held), memory.raw
