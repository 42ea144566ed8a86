"""Compares what the Python package says of real functions with what a compiler does, called through the real header.

Of each function a caller is made that includes the header, fills each argument with bytes of its own, and calls by the
function's own type; what registers and stack hold at the entry, what comes back, and the size, the offset and the kind
of every scalar inside are compared with what the library says of the nodes that the header reader found. The compiler
is gcc. For win64 it calls by its attribute ms_abi, and a long has 64 bits. For apple it is clang, whose code is run on
Linux (macho.py); the headers of its system are not at hand, and glibc's stand in for them.
"""

import random
import subprocess
import tempfile
from collections.abc import Callable, Iterator, Sequence
from pathlib import Path

import macho
from ffi3 import headers
from ffi3.library import HIDDEN, RESULT, Call, Part, Piece, Type
from pycparser import c_ast

HERE = Path(__file__).resolve().parent
RUNNERS = {"aapcs64": ["qemu-aarch64"], "riscv": ["qemu-riscv64"], "apple": ["qemu-aarch64"]}
SIZES = {"int8": 1, "int16": 2, "int32": 4, "int64": 8, "int128": 16, "float": 4, "double": 8, "pointer": 8}
NAMES = {
    "amd64": ("rax rcx rdx rbx rsp rbp rsi rdi r8 r9 r10 r11 r12 r13 r14 r15".split(), [f"xmm{i}" for i in range(16)]),
    "aapcs64": ([f"x{i}" for i in range(31)], [f"v{i}" for i in range(32)]),
    "riscv": (["zero", "ra", "sp", "gp", "tp", "t0", "t1", "t2", "s0", "s1", *(f"a{i}" for i in range(8))],
              [*(f"ft{i}" for i in range(8)), "fs0", "fs1", *(f"fa{i}" for i in range(8))]),
}
NAMES["win64"], NAMES["apple"] = NAMES["amd64"], NAMES["aapcs64"]
# The bytes of the return address on the stack, and the register in which a hidden result's address comes back.
ENTRY = {"amd64": (8, 0), "win64": (8, 0), "aapcs64": (0, 0), "riscv": (0, 10), "apple": (0, 0)}
# In place of Apple's headers: Linux's, which are not to know clang as Apple's.
LINUX_HEADERS = ["-U__APPLE__", "-U__MACH__", "-U__nonnull", "-idirafter", "/usr/aarch64-linux-gnu/include",
                 "-idirafter", "/usr/include", "-idirafter", "/usr/include/x86_64-linux-gnu"]

# What the library says of a function: the call, and the layout of each part. A planted error is another.
Places = Callable[[headers.Function], Call]
Layouts = Callable[[headers.Function, Part], Type]


def compiler_for(target: str, flags: Sequence[str] = ()) -> headers.Compiler:
    """gcc for a target; for win64 the host's, which calls so by an attribute; for apple clang, with Linux's headers."""
    own = headers.compiler_for(target, "gcc" if target == "win64" else None)
    more = [*macho.SYNTAX, *LINUX_HEADERS] if target == "apple" else []
    return headers.Compiler(target, (own.words[0], *flags, *own.words[1:], *more), own.note)


def register(target: str, name: str) -> str:
    general, floating = NAMES[target]
    return f"general[{general.index(name)}]" if name in general else f"floating[{floating.index(name)}]"


def size_of(name: str) -> int:
    return SIZES[name.lstrip("us") if "int" in name else name]


def leaves(kind: headers.Kind, answers: headers.Answers) -> list[str]:
    """The scalars of a type as expressions of C; of a pointer nothing."""
    match kind:
        case headers.Struct():
            return [leaf for _, member in kind.members for leaf in leaves(member, answers)]
        case headers.Array():
            first = f"{kind.value}[0]"
            return [leaf.replace(first, f"{kind.value}[{i}]", 1) for i in range(kind.count(answers))
                    for leaf in leaves(kind.element, answers)]
        case headers.Pointer():
            return [""]
        case headers.Complex():
            return [f"__real__ {kind.value}", f"__imag__ {kind.value}"]
    return [kind.value]


class Value:
    """An argument, or the result: how it is declared in C, its type, its scalars in the library's layout, where it
    stands."""

    def __init__(self, name: str, node: c_ast.Node, kind: headers.Kind, layout: Type, pieces: Sequence[Piece],
                 answers: headers.Answers, chance: random.Random):
        self.name, self.kind, self.layout, self.pieces = name, kind, layout, pieces
        is_pointer = isinstance(kind, headers.Pointer) or kind.nodes(answers) == ("pointer",)
        self.type = "void *" if is_pointer else headers.spelled(node)
        self.expressions = None
        if not is_pointer and not isinstance(kind, headers.VaList):
            # (of a transparent union the kind is its first member, and its value names that)
            whole = headers.value_of(node, False)
            self.expressions = [leaf.replace(whole, name) for leaf in leaves(kind, answers)]
        self.bytes = [chance.randrange(1, 0x7E) for _ in range(layout.size)]
        self.mask = [0] * layout.size
        for at, leaf in layout.leaves:
            self.mask[at:at + size_of(leaf)] = [1] * size_of(leaf)

    def declared(self) -> str:
        def listed(name: str, numbers: Sequence[int]) -> str:
            return f"static unsigned char {name}_{self.name}[] = {{{','.join(map(str, numbers))}}};"
        return f"{listed('p', self.bytes)} {listed('m', self.mask)} {self.type} {self.name};"

    def filled(self) -> str:
        n = self.name
        return (f"if (__builtin_types_compatible_p(__typeof__({n}), _Bool)) p_{n}[0] &= 1; "
                f"memcpy(&{n}, p_{n}, sizeof {n});")

    def laid_out(self) -> Iterator[str]:
        """That sizes, offsets and kinds are those that the compiler has."""
        if self.expressions is None:
            return
        name, (size, align, _, found) = self.name, self.layout
        yield f'ffi3_holds("{name} size", sizeof({name}) == {size});'
        if isinstance(self.kind, (headers.Struct, headers.Complex)):
            yield f'ffi3_holds("{name} align", _Alignof(__typeof__({name})) == {align});'
        yield f'ffi3_holds("{name} count", {len(self.expressions)} == {len(found)});'
        for expression, (at, leaf) in zip(self.expressions, found):
            if expression:
                kind = f"__builtin_classify_type({expression})"
                real = f"{kind} == 8" if leaf in ("float", "double") else f"{kind} != 8"
                if "int" in leaf and leaf != "pointer":
                    real += f" && ((__typeof__({expression}))-1 < 0) == {int(leaf[0] == 's')}"
                yield (f'ffi3_holds("{name} leaf at {at}", sizeof({expression}) == {size_of(leaf)} && {real} && '
                       f"(char *)&({expression}) - (char *)&{name} == {at});")

    def stand(self, target: str) -> Iterator[str]:
        """That each piece is where it is placed."""
        n = self.name
        for piece in self.pieces:
            at = (f"(seen.stack + {piece.number})" if piece.place == "stack"
                  else f"&seen.{register(target, piece.place)}")
            what = f"{n} in {piece.place}"
            if piece.is_address:
                yield f'ffi3_same("{what}", *(void **){at}, p_{n}, m_{n}, {self.layout.size});'
            else:
                yield (f'ffi3_same("{what}", {at}, p_{n} + {piece.offset}, m_{n} + {piece.offset}, '
                       f"{piece.length});")

    def given(self, target: str) -> Iterator[str]:
        """What the callee gives back."""
        for piece in self.pieces:
            if piece.part == HIDDEN:
                index = NAMES[target][0].index(piece.place)
                yield f"hidden_at = {index}; hidden_bytes = p_{self.name}; hidden_size = {self.layout.size};"
                return
            yield (f"memcpy(&give.{register(target, piece.place)}, p_{self.name} + {piece.offset}, "
                   f"{piece.length});")


def tried(i: int, function: headers.Function, call: Call, layout: Layouts, answers: headers.Answers,
          chance: random.Random) -> Iterator[str]:
    """The C function that tries one function."""
    target = function.target
    parameters = [each.type for each in function.prototype.args.params if not isinstance(each, c_ast.EllipsisParam)]

    def value(name: str, node: c_ast.Node, kind: headers.Kind, part: Part, pieces: Sequence[Piece]) -> Value:
        return Value(name, node, kind, layout(function, part), pieces, answers, chance)

    passed = call.pieces[:call.passed]
    arguments = [value(f"a{k}", parameters[k], kind, k, [each for each in passed if each.part == k])
                 for k, kind in enumerate(function.arguments)]
    hidden = [each for each in passed if each.part == HIDDEN]
    result = function.result and value("r", function.prototype.type, function.result, RESULT,
                                       hidden or call.pieces[call.passed:])
    attribute = "__attribute__((ms_abi))" if target == "win64" else ""
    yield f"static void try_{i}(void) {{ typedef __typeof__({function.name}) called {attribute};"
    yield f'now = "{function.name}"; hidden_at = -1;'
    yield "memset(&give.general, 0x5a, sizeof give.general); memset(&give.floating, 255, sizeof give.floating);"
    for each in [*arguments, *([result] if result else [])]:
        yield each.declared()
        yield from each.laid_out()
        yield each.filled()
    if result:
        yield from result.given(target)
    yield f"{'r = ' if result else ''}((called *)trap_at)({', '.join(each.name for each in arguments)});"
    for each in arguments:
        yield from each.stand(target)
    if result:
        yield f'ffi3_same("result", &r, p_r, m_r, {result.layout.size});'
    yield "}"


def has_struct(function: headers.Function) -> bool:
    return any(isinstance(kind, (headers.Struct, headers.Complex, headers.Array)) for kind in function.types())


def has_long_double(kind: headers.Kind) -> bool:
    """Whether a long double is in a type: tried.c has no x87 register, and half of a vector register."""
    match kind:
        case headers.Struct():
            return any(has_long_double(member) for _, member in kind.members)
        case headers.Array():
            return has_long_double(kind.element)
        case headers.Real() | headers.Complex():
            return kind.words.startswith("long")
    return False


def chosen(found: Sequence[headers.Function], others: int, chance: random.Random) -> list[headers.Function]:
    """The functions that have structs, and some others, but those with long doubles."""
    read = [each for each in found if each.is_read and "noreturn" not in " ".join(each.chunk.raw)
            and not any(map(has_long_double, each.types()))]
    rest = [each for each in read if not has_struct(each)]
    return [*filter(has_struct, read), *chance.sample(rest, min(others, len(rest)))]


def program(names: Sequence[str], compiler: headers.Compiler, functions: Sequence[headers.Function],
            place: Places = headers.Function.place, layout: Layouts = headers.Function.layout) -> str:
    """The C program that tries all of these functions."""
    chance = random.Random(1)
    answers = headers.answers_of(compiler, headers.preprocessed(compiler, names), (
        question for each in functions for kind in each.types() for question in kind.questions()))
    included = [f'"{Path(name).resolve()}"' if Path(name).exists() else f"<{name}>" for name in names]
    lines = [*(f"#include {name}" for name in included), '#include "trap.h"']
    for i, function in enumerate(functions):
        lines += tried(i, function, place(function), layout, answers, chance)
    return "\n".join([*lines, "int main(void) {", *(f"try_{i}();" for i in range(len(functions))),
                      "return ffi3_ended(); }", ""])


def made(compiler: headers.Compiler, folder: Path) -> subprocess.CompletedProcess:
    """Makes the program `tried` of tried.c, with the trap, which is compiled for Linux on every target."""
    target = compiler.target
    # (the linker for RISC-V takes minutes to relax the calls of thousands of functions)
    own = ["-w", "-fno-builtin", *["-mno-relax"] * (target == "riscv"), f"-I{HERE / 'by_hand'}"]
    trap = [f"-DRETURN_ADDRESS={ENTRY[target][0]}", f"-DHIDDEN_BACK={ENTRY[target][1]}", HERE / "by_hand/trap.c"]
    linked = ["-static", "-no-pie", "-o", folder / "tried", *trap]
    if target != "apple":
        return headers.run(*compiler.words, *own, *linked, folder / "tried.c")
    ended = headers.run(*compiler.words, *own, "-S", "-o", "-", folder / "tried.c")
    if ended.returncode:
        return ended
    (folder / "tried.s").write_text(macho.in_elf(ended.stdout))
    return headers.run(headers.COMPILERS["aapcs64"], *own, *linked, folder / "tried.s")


def ran(compiler: headers.Compiler, text: str) -> list[str]:
    """The lines that the program prints, or why it did not run."""
    with tempfile.TemporaryDirectory() as folder:
        Path(folder, "tried.c").write_text(text)
        ended = made(compiler, Path(folder))
        if ended.returncode == 0:
            ended = headers.run(*RUNNERS.get(compiler.target, []), Path(folder, "tried"))
        return ended.stdout.splitlines() or [f"ended with {ended.returncode}: {ended.stderr[:3000]}"]
