"""What the commands of gdb.py do: they read what a machine holds that has stopped in gdb.

Types are read as the target's compiler reads them (headers.py), so a prototype may have typedefs and enums in front.
Arguments are read from registers and stack by the library (ffi3_arguments_nodes), and memory that an argument is passed
by reference to through gdb. The machine is amd64, aarch64 or riscv64, as gdb names it, and the standard that of the
system for which the program is, by gdb's `show osabi`.
"""

import re
import tempfile
from collections.abc import Iterator, Mapping, Sequence
from dataclasses import dataclass
from itertools import chain
from pathlib import Path
from typing import NamedTuple

import gdb

from . import headers, library
from .library import RESULT, Call, Node, Scalar, Type

MOST_STACK = 64 * 1024
PAGE = 4096
WORD = (1 << 64) - 1


class Machine(NamedTuple):
    """A machine as gdb names it: the calling standard, and gdb's names of the registers that it calls otherwise."""

    target: str
    others: Mapping[str, str]  # of systems that have another standard: the standard, by gdb's name of the system
    renamed: Mapping[str, str]
    link: str  # the register with the return address, or nothing where it is on the stack
    jump: re.Pattern  # the words of a call in gdb's instructions


MACHINES = {
    "i386:x86-64": Machine("amd64", {"Windows": "win64", "Cygwin": "win64"}, {}, "", re.compile(r"\bcallq?\b")),
    "aarch64": Machine("aapcs64", {"Darwin": "apple"}, {}, "x30", re.compile(r"\bblr?[a-z]*\b")),
    "riscv:rv64": Machine("riscv", {}, {"s0": "fp"}, "ra", re.compile(r"\bc?\.?jalr?\b|\bcall\b")),
}


# ---- the machine that stopped

@dataclass
class Stop:
    """The machine at a stop: registers and memory, read through gdb."""

    frame: gdb.Frame
    machine: Machine

    @classmethod
    def now(cls) -> "Stop":
        try:
            frame = gdb.newest_frame()
        except gdb.error as error:
            raise gdb.GdbError(str(error)) from None
        name = frame.architecture().name()
        if name not in MACHINES:
            raise gdb.GdbError(f"no calling standard for {name}")
        machine = MACHINES[name]
        return cls(frame, machine._replace(target=machine.others.get(system(), machine.target)))

    def register(self, name: str, count: int = 8) -> int:
        """The lowest bytes of a register: eight, or as many as a long double has there."""
        value = self.frame.read_register(self.machine.renamed.get(name, name))
        return all_bits(value) if count > 8 else low_bits(value)

    def memory(self, at: int, count: int) -> bytes:
        return gdb.selected_inferior().read_memory(at, count).tobytes()

    def stack(self) -> bytes:
        """The bytes from sp on to the stack's end, or as many as are of use."""
        at, found = self.register("sp"), b""
        while len(found) < MOST_STACK:
            count = PAGE - (at + len(found)) % PAGE
            try:
                found += self.memory(at + len(found), count)
            except gdb.MemoryError:
                break
        return found


def system() -> str:
    """The system for which the program is, as gdb has found it or was told."""
    said = gdb.execute("show osabi", to_string=True)
    found = re.search(r'currently "([^"]*)"|is "([^"]*)"', said)
    return found[1] or found[2] if found else ""


def low_bits(value: gdb.Value) -> int:
    """The lowest 64 bits of a register: of a vector or of a union, those of its first part."""
    kind = value.type.strip_typedefs()
    while kind.code in (gdb.TYPE_CODE_UNION, gdb.TYPE_CODE_ARRAY, gdb.TYPE_CODE_STRUCT):
        if kind.code == gdb.TYPE_CODE_ARRAY:
            value = value[kind.range()[0]]
        else:
            fields = {field.name: field for field in kind.fields()}
            value = value[next(name for name in ("v2_int64", "d", "u", "double", *fields) if name in fields)]
        kind = value.type.strip_typedefs()
    return int(value.format_string(format="z"), 16) & WORD


def all_bits(value: gdb.Value) -> int:
    """All the bits of a vector register of 128, or of one of x87, which gdb has as a float of 80."""
    if value.type.strip_typedefs().code == gdb.TYPE_CODE_UNION:
        words = value["d"]["u"]
        return low_bits(words[0]) | low_bits(words[1]) << 64
    return int(value.format_string(format="z"), 16)


# ---- where it stopped

def doubts(stop: Stop) -> Iterator[str]:
    """Why what is told may not be what was passed: the stop is not at an entry, or the function is local."""
    pc = stop.frame.pc()
    said = gdb.execute(f"info symbol {pc:#x}", to_string=True)
    known = re.match(r"(\S+)(?: \+ (\d+))? in section", said)
    name, behind = known.groups() if known else ("", None)
    if behind:
        yield f"the stop is {behind} bytes behind the first instruction of {name}: registers may have changed"
    elif not is_behind_a_call(stop, return_address(stop)):
        yield "no call stands before the address to which this returns: the stop may not be at a function's entry"
    if name and not behind and is_local(name, pc):
        yield f"{name} is local to its file: a compiler may have changed how it is called"
    elif not name:
        yield "no symbol has this address: if the function is local, a compiler may have changed how it is called"


def return_address(stop: Stop) -> int:
    """Where a function that begins here would return to; 0 where its place has no memory."""
    if stop.machine.link:
        return stop.register(stop.machine.link)
    try:
        return int.from_bytes(stop.memory(stop.register("sp"), 8), "little")
    except gdb.MemoryError:
        return 0


def is_behind_a_call(stop: Stop, back: int) -> bool:
    """Whether a call stands before an address."""
    try:
        for length in (4, 2) if stop.machine.link else (5, 2, 3, 4, 6, 7):
            [found] = stop.frame.architecture().disassemble(back - length, count=1)
            if found["length"] == length and stop.machine.jump.search(found["asm"]):
                return True
    except (gdb.MemoryError, gdb.error):
        pass
    return False


def is_local(name: str, pc: int) -> bool:
    """Whether a symbol at an address is known as one of its file alone, by debug information or by the symbol table."""
    if gdb.lookup_static_symbol(name) is not None:
        return True
    file = gdb.solib_name(pc) or gdb.current_progspace().filename
    said = gdb.execute(f"maintenance print msymbols -objfile {file}", to_string=True)
    return re.search(rf"^\[ *\d+\] t {pc:#x} {re.escape(name)}\b", said, re.M) is not None


# ---- the function

class Prototype(NamedTuple):
    """A function as its header has it, and the types that stand in the place of its dots."""

    function: headers.Function
    more: tuple[tuple[Node, ...], ...]

    @property
    def kinds(self) -> list[tuple[Node, ...]]:
        return [*self.function.nodes[1:], *self.more]

    def place(self) -> Call:
        return self.function.place(self.more)

    def names(self) -> list[str]:
        named = self.function.names
        return [named[i] if i < len(named) and named[i] else f"argument {i}" for i in range(len(self.kinds))]


def one_of(found: Sequence[headers.Function], where: str) -> headers.Function:
    """The last function, where it is read."""
    if not found:
        raise gdb.GdbError(f"not declared in {where}")
    if not found[-1].is_read:
        raise gdb.GdbError(f"{found[-1].name}: {found[-1].reason}")
    return found[-1]


def compiler_of(target: str, flags: Sequence[str]) -> headers.Compiler:
    """The target's compiler with more words. What it has otherwise than the target's own is told."""
    own = headers.compiler_for(target)
    if own.note:
        print(f"note: {own.note}")
    return headers.Compiler(target, (*own.words, *flags), own.note)


def of_text(compiler: headers.Compiler, text: str) -> headers.Function:
    """The last function that a text in C declares, as a compiler reads it."""
    with tempfile.NamedTemporaryFile("w", suffix=".h") as file:
        file.write(text.strip().rstrip(";") + ";\n")
        file.flush()
        found = headers.read(file.name, compiler=compiler, is_wanted=lambda chunk: chunk.file == file.name)
    return one_of(found, "this text")


def prototype_of(target: str, text: str) -> Prototype:
    """What the words of a command name: a prototype, or a function in a header, with types for the dots perhaps."""
    try:
        asked_for = re.fullmatch(r"\s*(\w+)\s+in\s+([^:]*)(?::(.*))?", text)
        if not asked_for:
            return Prototype(of_text(compiler_of(target, ()), text), ())
        name, (path, *flags), more = asked_for[1], asked_for[2].split(), asked_for[3]
        compiler = compiler_of(target, flags)
        function = one_of(headers.read(path, compiler=compiler, names=[name]), path)
        if not more:
            return Prototype(function, ())
        included = f'"{Path(path).resolve()}"' if Path(path).exists() else f"<{path}>"
        given = of_text(compiler, f"#include {included}\nvoid ffi3_more({more})")
        return Prototype(function, given.nodes[1:])
    except headers.Failed as failed:
        raise gdb.GdbError(str(failed)) from None


# ---- values

def registers(stop: Stop, call: Call) -> dict[str, int]:
    """The registers that a call's places name."""
    return {piece.place: stop.register(piece.place, piece.length)
            for piece in sorted(call.pieces, key=lambda piece: piece.length) if piece.place != "stack"}


def read_or_say(stop: Stop, at: int, size: int, what: str) -> bytes:
    """Memory to which a reference leads."""
    try:
        return stop.memory(at, size)
    except gdb.MemoryError:
        raise gdb.GdbError(f"{what} stands at the address {at:#x}, where no memory is") from None


def result_of(stop: Stop, function: headers.Function, kind: Type) -> bytes:
    """The result's bytes by ffi3_result_nodes, or those behind the address that it tells."""
    try:
        return library.result_nodes(stop.machine.target, chain(*function.nodes), registers(stop, function.place()),
                                    fixed=function.fixed)
    except library.NotInStack as missing:
        return read_or_say(stop, missing.address, kind.size, "the result")
    except library.NoAddress as missing:
        raise gdb.GdbError(str(missing)) from None


def all_arguments(stop: Stop, prototype: Prototype) -> Iterator[tuple[str, Type, tuple[Scalar, ...]]]:
    """Each argument's name, type and scalars, by ffi3_arguments_nodes, or by the bytes at the address that it tells."""
    function = prototype.function
    found = library.arguments_nodes(stop.machine.target, chain(*function.nodes, *prototype.more),
                                    registers(stop, prototype.place()), stop.register("sp"), stop.stack(),
                                    function.fixed)
    for name, nodes, one in zip(prototype.names(), prototype.kinds, found):
        kind = library.layout_nodes(nodes, stop.machine.target)
        held = read_or_say(stop, one.address, one.size, name) if one.value is None else one.value
        yield name, kind, library.scalars(kind.leaves, held)


def shown(kind: Type, value: tuple[Scalar, ...]) -> str:
    """The scalars of a value: a pointer with the text to which it points, if any."""
    texts = [repr(scalar) if isinstance(scalar, float) else pointed(scalar) if name == "pointer" else str(scalar)
             for (_, name), scalar in zip(kind.leaves, value)]
    return f"{{{', '.join(texts)}}}" if kind.offsets else texts[0]


def pointed(address: int) -> str:
    """A pointer, with the text that stands there, if any."""
    count = min(24, PAGE - address % PAGE)
    try:
        held = gdb.selected_inferior().read_memory(address, count).tobytes() if address else b""
    except gdb.MemoryError:
        held = b""
    words = held.split(b"\0")[0]
    is_text = len(words) > 1 and all(32 <= each < 127 for each in words)
    return f"{address:#x}{f' {words.decode()!r}' if is_text else ''}"


# ---- commands

class Arguments(gdb.Command):
    """Prints the arguments that a function was called with, at its first instruction.

ffi3-args PROTOTYPE
ffi3-args NAME in HEADER [COMPILER'S FLAGS] [: TYPE, TYPE..]

The types behind the colon are those of what stands in the place of the dots. A note says where the stop is not at an
entry, or the function is local, so that its caller may have passed something else.

    break *(long)&deflateInit2_                 its first instruction, where `break deflateInit2_` may be behind it
    run
    ffi3-args deflateInit2_ in zlib.h
    ffi3-args SDL_RenderCopyF in SDL.h -I/usr/include/SDL2
    ffi3-args printf in stdio.h : int, double
    ffi3-args double weigh(struct { int id; float weight; } item, const char *label, double scale)
    ffi3-args typedef enum { OFF, ON } state; void set(state now, char label[8])"""

    def __init__(self):
        super().__init__("ffi3-args", gdb.COMMAND_DATA, gdb.COMPLETE_SYMBOL)

    def invoke(self, text: str, from_tty: bool) -> None:
        stop = Stop.now()
        try:
            told = list(all_arguments(stop, prototype_of(stop.machine.target, text)))
        except (library.Error, LookupError) as error:
            raise gdb.GdbError(str(error)) from None
        for doubt in doubts(stop):
            print(f"note: {doubt}")
        for name, kind, value in told:
            print(f"{name} = {shown(kind, value)}")


class Result(gdb.Command):
    """Prints what a function gave back, where it has just returned, as behind `finish`.

ffi3-result PROTOTYPE
ffi3-result NAME in HEADER [COMPILER'S FLAGS]

    finish
    ffi3-result deflateInit2_ in zlib.h

A large struct is read through the address that comes back; by AAPCS64 none does."""

    def __init__(self):
        super().__init__("ffi3-result", gdb.COMMAND_DATA, gdb.COMPLETE_SYMBOL)

    def invoke(self, text: str, from_tty: bool) -> None:
        stop = Stop.now()
        function = prototype_of(stop.machine.target, text).function
        kind = function.layout(RESULT)
        if not is_behind_a_call(stop, stop.frame.pc()):
            print("note: no call stands before the instruction at which it stopped: no function may have returned here")
        if not kind.leaves:
            print("nothing comes back")
        else:
            print(f"{function.name} = {shown(kind, library.scalars(kind.leaves, result_of(stop, function, kind)))}")
