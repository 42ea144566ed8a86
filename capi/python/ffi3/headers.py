"""Reads the C headers that a compiler reads, and tells each function's types to the library as data.

    from ffi3 import headers
    for function in headers.read("zlib.h", "riscv"):
        print(function.declaration, function.place() if function.is_read else function.reason)

The compiler preprocesses, pycparser parses, and the compiler is asked for every number: sizes, signs, offsets, counts
of arrays, by one compilation to assembly, so that a cross compiler answers as well and nothing is run. So a typedef, an
enum, `char`, `wchar_t` or `long` is what the target's compiler takes it for. Where a struct's offsets are not the
natural ones, as those of a packed one, the library says so (check_layout), and the function is not read. Each function
that is not read has a reason.
"""

import copy
import os
import re
import shlex
import shutil
import subprocess
import tempfile
from collections.abc import Callable, Collection, Iterable, Iterator, Mapping, Sequence
from dataclasses import dataclass, field
from functools import lru_cache
from itertools import chain
from pathlib import Path
from typing import NamedTuple, Optional

from pycparser import c_ast, c_generator, c_parser

from . import library
from .library import Call, Node

COMPILERS = {"amd64": "gcc", "aapcs64": "aarch64-linux-gnu-gcc", "riscv": "riscv64-linux-gnu-gcc",
             "win64": "x86_64-w64-mingw32-gcc"}
# gcc makes no code for Apple's systems; clang does, and has a few headers of its own, as stdint.h.
APPLE = "clang --target=arm64-apple-macos -nostdlibinc"
NO_SDK = 'clang has no headers of a Mac here: --cc "clang --target=arm64-apple-macos -isysroot SDK" reads with those'
# What a compiler defines on each target, and what it does not. With pointers of 32 bits, on RISC-V without registers
# for a double, and for Windows on Arm the standards are others.
TARGET_OF = (("win64", {"__x86_64__", "_WIN64"}, ""), ("win64", {"__x86_64__", "__CYGWIN__"}, ""),
             ("amd64", {"__x86_64__", "__LP64__"}, "__CYGWIN__"),
             ("apple", {"__AARCH64EL__", "__LP64__", "__APPLE__"}, ""),
             ("aapcs64", {"__AARCH64EL__", "__LP64__"}, "__APPLE__"),
             ("riscv", {"__riscv", "__LP64__", "__riscv_float_abi_double"}, ""))


class Failed(Exception):
    """What the compiler says where it reads nothing at all."""


class Refused(Exception):
    """Why a function is not read."""


# ---- the text, cut at the top level

TOKEN = re.compile(r"""
    (?P<directive>^[ \t]*\#[^\n]*$) | (?P<blank>\s+) | (?P<word>[A-Za-z_$][\w$]*) | (?P<comment>/\*.*?\*/|//[^\n]*)
  | (?P<text>L?"(?:\\.|[^"\\])*"|L?'(?:\\.|[^'\\])*') | (?P<number>\.?\d(?:[eEpP][+-]|[\w.])*)
  | (?P<mark>\.\.\.|<<=?|>>=?|[-+&|<>=!]=|->|&&|\|\||\+\+|--|.)
    """, re.M | re.S | re.X)
MARKER = re.compile(r'\s*#\s*(?:line\s+)?(\d+)\s+"(.*?)"([ \d]*)')
MARKED = re.compile(r"^[ \t]*#[^\n]*", re.M)
PRAGMA = re.compile(r"^[ \t]*#[ \t]*pragma[ \t]+(pack|options|ms_struct)|__pragma|_Pragma", re.M)
LAYS_OUT = {"__attribute__", "__attribute", "__declspec", "_Alignas", "alignas"}
WITH_BRACKETS = {"__attribute__", "__attribute", "__asm__", "__asm", "asm", "__declspec"}
LEFT_OUT = {"__extension__", "__restrict", "__restrict__", "__inline", "__inline__", "__forceinline", "__thread",
            "_Noreturn", "__noreturn__", "__cdecl", "__stdcall", "__unaligned", "__vectorcall", "__regcall"}
# GNU C's words as words of C. Reals of 16 and of 128 bits have words that C has not, which pycparser reads.
INSTEAD = {"__const": "const", "__const__": "const", "__volatile__": "volatile", "__volatile": "volatile",
           "__signed__": "signed", "__signed": "signed", "__complex__": "_Complex", "__alignof__": "_Alignof",
           "_Float32": "float", "_Float64": "double", "_Float32x": "double", "_Float64x": "long double",
           "_Float16": "short float", "_Float128": "long float", "__float128": "long float",
           "__int8": "char", "__int16": "short", "__int32": "int", "__int64": "long long"}
TRANSPARENT = {"transparent_union", "__transparent_union__"}
# Attributes by which a function is called by another standard, with the target whose own that is, if any.
CONVENTIONS = {"ms_abi": "win64", "sysv_abi": "amd64", **dict.fromkeys((
    "vectorcall", "regcall", "aarch64_vector_pcs", "aarch64_sve_pcs", "riscv_vector_cc", "swiftcall", "swiftasynccall",
    "preserve_none"), "")}
CONVENTION_OF = {word: name for name in CONVENTIONS for word in (name, f"__{name}__", f"__{name}")}
OPEN, CLOSE = "([{", ")]}"
TYPEOF = {"__typeof__", "__typeof", "typeof"}
PLAIN = {"word", "number", "text", "mark"}
CUTS = {*WITH_BRACKETS, *TYPEOF, *OPEN, *CLOSE, ";"}
AT_ONCE = 200  # so many chunks are parsed together
A_FEW = 20  # so many where one is new among others that have been parsed for another target
BUILT_IN = ("typedef struct __ffi3_va_list __builtin_va_list; typedef __int128 __int128_t; "
            "typedef unsigned __int128 __uint128_t;")


@dataclass
class Chunk:
    """What stands at the top level up to a semicolon or a function's body: its first and last line, and its tokens as
    they stand and as pycparser reads them. Its owner is its file, or who includes that where it is of glibc's bits/."""

    file: str
    owner: str
    first: int
    last: int
    raw: list[str]
    words: list[str]

    def is_function(self) -> bool:
        """Whether it may declare functions, and no type that others need."""
        return "(" in self.words and "{" not in self.words and self.words[0] != "typedef"

    def convention(self, target: str) -> str:
        """The attribute by which what it declares is called by a standard that is not the target's; else nothing."""
        named = (CONVENTION_OF[word] for word in self.raw if word in CONVENTION_OF)
        return next((name for name in named if CONVENTIONS[name] != target), "")


def tokens(text: str) -> Iterator[tuple[str, str, list[str], int]]:
    """The tokens but blanks: kind, text, the files that are open, from the outermost, and the line."""
    files, line = [""], 1
    for match in TOKEN.finditer(text):
        kind, word = match.lastgroup or "", match[0]
        if kind == "directive":
            if marker := MARKER.match(word):
                flags, line = marker[3].split(), int(marker[1]) - 1
                outer = files if "1" in flags else files[:-2] if "2" in flags else files[:-1]
                files = [*outer, marker[2]]
        elif kind != "blank":
            yield kind, word, files, line
        if "\n" in word:
            line += word.count("\n")


def past_brackets(listed: Sequence[tuple], at: int) -> int:
    """The token behind the brackets that open at a token."""
    depth = 0
    while at < len(listed):
        depth += (listed[at][1] in OPEN) - (listed[at][1] in CLOSE)
        at += 1
        if depth == 0:
            break
    return at


def chunks(text: str) -> Iterator[Chunk]:
    """The chunks of a preprocessed text. A function's body is left out, and so is what pycparser has no word for."""
    listed, at, depth, chunk = list(tokens(text)), 0, 0, None
    while at < len(listed):
        kind, word, files, line = listed[at]
        if chunk is None:
            if kind == "comment":
                at += 1
                continue
            owner = next((file for file in reversed(files) if "/bits/" not in file), files[-1])
            chunk, depth = Chunk(files[-1], owner, line, line, [], []), 0
        until = at + 1
        if kind in PLAIN and word not in CUTS:  # most tokens
            if word not in LEFT_OUT:
                chunk.words += INSTEAD.get(word, word).split()
            chunk.raw.append(word)
            chunk.last = line
            at = until
            continue
        if word in WITH_BRACKETS:
            while until < len(listed) and listed[until][1] in ("volatile", "__volatile__", "goto"):
                until += 1
            until = past_brackets(listed, until)
        elif word in TYPEOF:
            until = past_brackets(listed, until)
            chunk.words += ["struct", "__ffi3_typeof"]
        elif word == "{" and depth == 0 and chunk.words[-1:] == [")"] and "=" not in chunk.words:
            at, until, word = past_brackets(listed, at) - 1, past_brackets(listed, at), ";"
            chunk.words.append(word)
        elif kind != "comment" and word not in LEFT_OUT:
            depth += (word in OPEN) - (word in CLOSE)
            chunk.words += INSTEAD.get(word, word).split()
        chunk.raw += [";"] if word == ";" else [each[1] for each in listed[at:until]]
        chunk.last = listed[until - 1][3]
        at = until
        if word == ";" and depth == 0:
            yield chunk
            chunk = None


# ---- what pycparser finds

Tell = Callable[[str], None]  # is told what is done, for who waits


@dataclass
class Parsed:
    """The declarations in a text, each with its chunk, the nodes that may define types, and the chunks that pycparser
    cannot parse."""

    declared: list[tuple[Chunk, c_ast.Node]]
    defining: list[c_ast.Node]
    left_out: list[Chunk]


Found = Optional[list[c_ast.Node]]  # what stands in a declaration; nothing where pycparser cannot parse it


class Parser:
    """pycparser, and what it has found: the same words with the same names of types are parsed once, for a header has
    most of them on each target."""

    def __init__(self):
        self.parser = c_parser.CParser()
        self.known: dict[tuple[tuple[str, ...], frozenset[str]], Found] = {}

    def in_order(self, lines: Sequence[Sequence[str]], tell: Tell) -> tuple[list[Found], dict[str, int]]:
        """What each of some declarations is, those before it being known; and the names of types, each with the number
        of the declaration that defines it."""
        typedefs: dict[str, int] = {}
        found: list[Found] = []
        at_once = A_FEW if self.known else AT_ONCE
        while len(found) < len(lines):
            start = len(found)
            key = key_of(lines[start], typedefs)
            if key in self.known:
                made = [self.known[key]]
            else:
                tell(f"{start} of {len(lines)} declarations are parsed")
                made = self.parse(lines[start:start + at_once], typedefs)
            for words, nodes in zip(lines[start:], made):
                self.known[key_of(words, typedefs)] = nodes
                for node in nodes or ():
                    if isinstance(node, c_ast.Typedef):
                        typedefs.setdefault(node.name, len(found))
                found.append(nodes)
        return found, typedefs

    def apart(self, lines: Sequence[Sequence[str]], typedefs: Collection[str]) -> list[Found]:
        """What each of some declarations is, none of which defines a type."""
        keys = [key_of(words, typedefs) for words in lines]
        new = [i for i, key in enumerate(keys) if key not in self.known]
        for start in range(0, len(new), AT_ONCE):
            here = new[start:start + AT_ONCE]
            made = self.parse([lines[i] for i in here], typedefs)
            self.known.update((keys[i], nodes) for i, nodes in zip(here, made))
        return [self.known[key] for key in keys]

    def parse(self, lines: Sequence[Sequence[str]], typedefs: Collection[str]) -> list[Found]:
        """What each of some declarations is, in front of which these names are those of types. What cannot be parsed is
        left out, and the others are given to pycparser again."""
        left_out: set[int] = set()
        while True:
            kept = [() if i in left_out else words for i, words in enumerate(lines)]
            names = sorted({word for words in kept for word in words if word in typedefs})
            text = [" ".join([BUILT_IN, *(f"typedef int {name};" for name in names)]), *map(" ".join, kept)]
            try:
                tree = self.parser.parse("\n".join(text))
            except c_parser.ParseError as error:
                where = re.match(r":?(\d+)", str(error))
                if not where and len(lines) > 1:  # as of a type that it does not know: it is one of fewer
                    return self.parse_halves(lines, typedefs)
                number = int(where[1]) - 2 if where else 0
                if number in left_out or number < 0:
                    raise Failed(f"pycparser: {error}") from None
                left_out.add(number)
                continue
            found: list[Found] = [None if i in left_out else [] for i in range(len(lines))]
            for node in tree.ext:
                if node.coord.line > 1:
                    found[node.coord.line - 2].append(node)
            return found

    def parse_halves(self, lines: Sequence[Sequence[str]], typedefs: Collection[str]) -> list[Found]:
        """The same, first of the one half and then of the other."""
        half = len(lines) // 2
        found = self.parse(lines[:half], typedefs)
        defined = {node.name for nodes in found for node in nodes or () if isinstance(node, c_ast.Typedef)}
        return found + self.parse(lines[half:], {*typedefs, *defined})


def key_of(words: Sequence[str], typedefs: Collection[str]) -> tuple[tuple[str, ...], frozenset[str]]:
    """All that a declaration's nodes depend on: its words, and which of them are names of types."""
    return tuple(words), frozenset([word for word in words if word in typedefs])


def parsed(found: Sequence[Chunk], parser: Parser, tell: Tell = lambda _: None) -> Parsed:
    """What pycparser finds. Plain prototypes are put together from results and parameters, each parsed once, for in a
    large header most are alike; all else is parsed as it stands."""
    plain = {i: prototype for i, chunk in enumerate(found)
             if chunk.is_function() and (prototype := plain_of(chunk.words))}
    rest = [i for i in range(len(found)) if i not in plain]
    made, defined = parser.in_order([found[i].words for i in rest], tell)
    nodes: dict[int, Found] = dict(zip(rest, made))
    typedefs = {name: rest[number] for name, number in defined.items()}
    tell(f"{len(plain)} prototypes are parsed")
    # What has a name that is a type's further down is parsed by what stands before it.
    at_once = {i: each for i, each in plain.items() if each.name not in typedefs
               and all(typedefs.get(word, i) <= i for word in found[i].words)}
    nodes.update(zip(at_once, parsed_prototypes(parser, list(at_once.values()), typedefs)))
    for i in plain:
        if nodes.get(i) is None:
            before = {name for name, at in typedefs.items() if at < i}
            [nodes[i]] = parser.apart([found[i].words], before)
    numbers = range(len(found))
    return Parsed([(found[i], node) for i in numbers for node in nodes[i] or ()],
                  [node for i in rest for node in nodes[i] or ()], [found[i] for i in numbers if nodes[i] is None])


class Plain(NamedTuple):
    """A prototype that is a result's words, a name, and in brackets each parameter's words."""

    result: tuple[str, ...]
    name: str
    parameters: tuple[tuple[str, ...], ...]


ONE = "__ffi3_one"  # the name of what is parsed in its place
DOTS = ("...",)
TAGGED = {"struct", "union", "enum"}
NO_NAMES = {"void", "char", "short", "int", "long", "float", "double", "signed", "unsigned", "_Bool", "_Complex"}


def plain_of(words: Sequence[str]) -> Plain | None:
    """A chunk's words as a plain prototype; nothing where they are none."""
    opened = words.index("(")
    result, name = words[:opened - 1], words[opened - 1]
    if not result or name in NO_NAMES or words[-2:] != [")", ";"] or "typedef" in result:
        return None
    if result[-1] in TAGGED or not all(word == "*" or word.isidentifier() for word in (*result, name)):
        return None
    parameters: list[list[str]] = [[]]
    depth = 0
    for word in words[opened + 1:-2]:
        depth += (word in OPEN) - (word in CLOSE)
        if depth < 0:
            return None
        if word == "," and depth == 0:
            parameters.append([])
        else:
            parameters[-1].append(word)
    listed = tuple(tuple(words) for words in parameters)
    return Plain(tuple(result), name, listed) if all(listed) and DOTS not in (listed[0], *listed[:-1]) else None


def parsed_prototypes(parser: Parser, plain: Sequence[Plain], typedefs: Collection[str]) -> list[Found]:
    """The declaration that each of these is; nothing where pycparser cannot parse it so."""
    results = list(dict.fromkeys(each.result for each in plain))
    parameters = list(dict.fromkeys(one for each in plain for one in each.parameters if one != DOTS))
    lines = [[*words, ONE, "(", "void", ")", ";"] for words in results]
    lines += [["void", ONE, "(", *words, ")", ";"] for words in parameters]
    made = parser.apart(lines, typedefs)
    by_result = dict(zip(results, made))
    by_parameter = {words: parameter_of(nodes) for words, nodes in zip(parameters, made[len(results):])}
    by_parameter[DOTS] = c_ast.EllipsisParam()
    found: list[Found] = []
    for each in plain:
        result, listed = by_result[each.result], [by_parameter[words] for words in each.parameters]
        if result and len(result) == 1 and None not in listed:
            found.append([put_together(result[0], each.name, listed)])
        else:
            found.append(None)
    return found


def parameter_of(nodes: Found) -> c_ast.Node | None:
    """The one parameter of the function that was parsed; nothing where it is a name without a type."""
    if nodes is None or len(nodes) != 1 or not isinstance(nodes[0].type, c_ast.FuncDecl):
        return None
    listed = nodes[0].type.args.params
    return listed[0] if len(listed) == 1 and isinstance(listed[0], (c_ast.Decl, c_ast.Typename)) else None


def put_together(like: c_ast.Decl, name: str, parameters: list[c_ast.Node]) -> c_ast.Decl:
    """A function's declaration, with the result of another."""
    found = copy.copy(like)
    found.name, found.type = name, c_ast.FuncDecl(c_ast.ParamList(parameters), named(like.type.type, name))
    return found


def named(node: c_ast.Node, name: str) -> c_ast.Node:
    """A declarator, with another name."""
    found = copy.copy(node)
    if isinstance(node, c_ast.TypeDecl):
        found.declname = name
    else:
        found.type = named(node.type, name)
    return found


# ---- types: each knows what to ask the compiler, by an expression of this type, and its nodes by the answers

class Answers(dict[str, int]):
    """What a compiler answers to questions, and the target for which it makes code."""

    def __init__(self, target: str, found: Mapping[str, int]):
        super().__init__(found)
        self.target = target


INTEGERS = {(size, is_signed): f"{'us'[is_signed]}int{8 * size}"
            for size in (1, 2, 4, 8, 16) for is_signed in (0, 1)}
REALS = {"float": 4, "double": 8}


def size(value: str) -> str:
    """A question: the size of an expression's type."""
    return f"sizeof({value})"


def sign(value: str) -> str:
    """Whether it has a sign: a question that a compiler refuses of what is neither integer nor real."""
    return f"((__typeof__({value}))-1 < 0)"


def align(value: str) -> str:
    """Its alignment."""
    return f"_Alignof(__typeof__({value}))"


def answered(answers: Answers, question: str) -> int:
    """The answer that a type must have to stand by value."""
    if question not in answers:
        raise Refused("a type without a size")
    return answers[question]


@dataclass(frozen=True)
class Kind:
    """A type that stands by value at an expression."""

    value: str

    def questions(self) -> list[str]:
        """What the compiler is asked of it."""
        return [size(self.value)]

    def nodes(self, answers: Answers) -> tuple[Node, ...]:
        """Its nodes. Raises Refused where it has none."""
        raise NotImplementedError


@dataclass(frozen=True)
class Integer(Kind):
    """An integer, an enum or a _Bool."""

    def questions(self) -> list[str]:
        return [size(self.value), sign(self.value)]

    def nodes(self, answers: Answers) -> tuple[Node, ...]:
        of_bytes, is_signed = answered(answers, size(self.value)), answers.get(sign(self.value), -1)
        return (INTEGERS.get((of_bytes, is_signed), "vector"),)


def real_of(words: str, of_bytes: int, target: str) -> str:
    """The node of a real that has these words, and so many bytes.

    A long double is the target's, or a double. That of gcc for Windows is neither: it is passed as the standard passes
    each type of 16 bytes, so it is told as an integer of that size. Of the reals that C has not one is a long double's:
    that of 128 bits, where this is IEEE 754's."""
    if words == "long double" and of_bytes == 8:
        return "double"
    if words == "long double" and of_bytes == 16 and target in ("amd64", "aapcs64", "riscv", "win64"):
        return words if target != "win64" else "uint128"
    if words == "long float" and of_bytes == 16 and target in ("aapcs64", "riscv"):
        return "long double"
    if words not in REALS:
        raise Refused(f"a real of {8 * of_bytes} bits")
    return words if REALS[words] == of_bytes else "vector"


@dataclass(frozen=True)
class Real(Kind):
    """A floating type, by its words."""

    words: str

    def questions(self) -> list[str]:
        return [size(self.value), sign(self.value)]

    def nodes(self, answers: Answers) -> tuple[Node, ...]:
        name = real_of(self.words, answered(answers, size(self.value)), answers.target)
        return (name if sign(self.value) in answers else "vector",)


@dataclass(frozen=True)
class Complex(Kind):
    """A complex type, by the words of its parts."""

    words: str

    def nodes(self, answers: Answers) -> tuple[Node, ...]:
        name = real_of(self.words, answered(answers, size(self.value)) // 2, answers.target)
        if name == "uint128":
            return ("struct", 2), name, name
        return (f"complex {name}" if name != "vector" else name,)


@dataclass(frozen=True)
class Pointer(Kind):
    """A pointer, or a parameter that is one in C."""

    def questions(self) -> list[str]:
        return []

    def nodes(self, answers: Answers) -> tuple[Node, ...]:
        return ("pointer",)


@dataclass(frozen=True)
class VaList(Kind):
    """A pointer where it has 8 bytes, or is an array; to AAPCS64 a struct of 32 bytes (10.1.5)."""

    def nodes(self, answers: Answers) -> tuple[Node, ...]:
        if answers.get(size(self.value)) == 32:
            return (("struct", 5), *["pointer"] * 3, *["sint32"] * 2)
        return ("pointer",)


@dataclass(frozen=True)
class Array(Kind):
    """An array in a struct."""

    element: Kind

    def questions(self) -> list[str]:
        return [size(self.value), size(f"{self.value}[0]"), *self.element.questions()]

    def count(self, answers: Answers) -> int:
        one = answered(answers, size(f"{self.value}[0]"))
        return answered(answers, size(self.value)) // one if one else 0

    def nodes(self, answers: Answers) -> tuple[Node, ...]:
        count = self.count(answers)
        if count >= 1 << 32:  # more than a node can say
            raise Refused(f"too large: {answered(answers, size(self.value))}")
        return (("array", count), *self.element.nodes(answers))


@dataclass(frozen=True)
class Struct(Kind):
    """A struct. One without a name in a struct has no expression: its members are also those of the struct around it,
    whose offsets they have."""

    members: tuple[tuple[str, Kind], ...]  # pairs: the name, or nothing for a struct without one, and the type

    def names(self) -> list[str]:
        return [each for name, kind in self.members for each in names_of(name, kind)]

    def offset(self, name: str) -> str:
        return f"__builtin_offsetof(__typeof__({self.value}), {name})"

    def questions(self) -> list[str]:
        own = [size(self.value), align(self.value), *map(self.offset, self.names())] if self.value else []
        return own + [each for _, kind in self.members for each in kind.questions()]

    def nodes(self, answers: Answers) -> tuple[Node, ...]:
        nodes = (("struct", len(self.members)), *chain.from_iterable(kind.nodes(answers) for _, kind in self.members))
        if self.value:
            offsets = {name: answered(answers, self.offset(name)) for name in self.names()}
            whole = answered(answers, size(self.value)), answered(answers, align(self.value))
            self.check(nodes, answers, offsets, *whole)
        return nodes

    def check(self, nodes: Sequence[Node], answers: Answers, offsets: Mapping[str, int], of_bytes: int,
              alignment: int) -> None:
        """That it is laid out as its types say, and so is each struct without a name in it."""
        starts = [offsets[names_of(name, kind)[0]] for name, kind in self.members]
        try:
            library.check_layout(nodes, of_bytes, alignment, [at - starts[0] for at in starts], answers.target)
        except library.Error as error:
            if error.kind != library.LAID_OUT_OTHERWISE:
                raise
            name = self.members[error.number][0] if error.number < len(self.members) else ""
            raise Refused(f"a packed or aligned struct{': ' * bool(name)}{name}") from None
        for name, kind in self.members:
            if isinstance(kind, Struct) and not name:
                inner = kind.nodes(answers)
                natural = library.layout_nodes(inner, answers.target)
                kind.check(inner, answers, offsets, natural.size, natural.align)


def names_of(name: str, kind: Kind) -> list[str]:
    """The names by which a member's offsets are asked for: of a struct without a name those of what is in it."""
    return kind.names() if isinstance(kind, Struct) and not name else [name]


# ---- from what pycparser found to types

class Definitions(c_ast.NodeVisitor):
    """The typedefs by name, and the structs and unions by tag."""

    def __init__(self, nodes: Iterable[c_ast.Node], transparent: set[str], conventions: Mapping[str, str]):
        self.typedefs: dict[str, c_ast.Node] = {}
        self.tags: dict[str, c_ast.Node] = {}
        self.transparent = transparent
        self.conventions = conventions  # by the words of typedefs that have such an attribute
        self.known: dict[tuple[c_ast.Node, bool], Kind | str] = {}
        for node in nodes:
            self.visit(node)

    def visit_Typedef(self, node):
        self.typedefs[node.name] = node.type
        self.generic_visit(node)

    def visit_Struct(self, node):
        if node.decls is not None and node.name:
            self.tags[node.name] = node
        self.generic_visit(node)

    visit_Union = visit_Struct

    def members(self, node: c_ast.Struct, value: str) -> Iterator[tuple[str, Kind]]:
        node = node if node.decls is not None else self.tags.get(node.name, node)
        if node.decls is None:
            raise Refused(f"a struct without members here: {node.name}")
        for member in node.decls:
            if isinstance(member, c_ast.Pragma):
                continue
            if member.bitsize is not None:
                raise Refused("a bit-field")
            if member.name:
                yield member.name, self.read(member.type, f"{value}.{member.name}")
            elif isinstance(member.type, c_ast.Struct):
                yield "", Struct("", self.some_members(member.type, value))
            else:
                raise Refused("a union by value")

    def some_members(self, node: c_ast.Struct, value: str) -> tuple[tuple[str, Kind], ...]:
        found = tuple(self.members(node, value))
        if not found:
            raise Refused("an empty struct")
        return found

    def read(self, node: c_ast.Node, value: str) -> Kind:
        """The type of a node, value being an expression of this type."""
        match node:
            case c_ast.PtrDecl():
                return Pointer(value)
            case c_ast.ArrayDecl() if node.dim is None:
                raise Refused("a flexible array")
            case c_ast.ArrayDecl():
                return Array(value, self.read(node.type, f"{value}[0]"))
            case c_ast.FuncDecl():
                raise Refused("a function by value")
            case c_ast.Enum():
                return Integer(value)
            case c_ast.Union():
                raise Refused("a union by value")
            case c_ast.Struct():
                return Struct(value, self.some_members(node, value))
            case c_ast.IdentifierType():
                return self.by_words(node.names, value)
        return self.read(node.type, value)

    def by_words(self, names: list[str], value: str) -> Kind:
        words = set(names)
        if names == ["__builtin_va_list"]:
            return VaList(value)
        if len(names) == 1 and names[0] in self.typedefs:
            return self.read(self.typedefs[names[0]], value)
        if words & {"float", "double"}:
            real = " ".join(word for word in ("short", "long", "float", "double") if word in words)
            return Complex(value, real) if "_Complex" in words else Real(value, real)
        if "_Complex" in words:
            raise Refused("a complex integer")
        return Integer(value)

    def parameter(self, node: c_ast.Node, is_plain: bool) -> Kind:
        """The type of a parameter, which many functions may share."""
        if (node, is_plain) not in self.known:
            try:
                self.known[node, is_plain] = self.read_parameter(node, is_plain)
            except Refused as refused:
                self.known[node, is_plain] = str(refused)
        found = self.known[node, is_plain]
        if isinstance(found, str):
            raise Refused(found)
        return found

    def read_parameter(self, node: c_ast.Node, is_plain: bool) -> Kind:
        """The same: an array and a function are pointers (C11 6.7.6.3), and a union that an attribute makes transparent
        is passed as its first member."""
        meant = self.behind(node)
        if isinstance(meant, (c_ast.ArrayDecl, c_ast.FuncDecl)):
            return Pointer("")
        if isinstance(getattr(meant, "type", None), c_ast.Union) and meant.declname in self.transparent:
            first = meant.type.decls[0]
            return self.read(first.type, f"{value_of(node, is_plain)}.{first.name}")
        return self.read(node, value_of(node, is_plain))

    def behind(self, node: c_ast.Node) -> c_ast.Node:
        """What a typedef name stands for; the node itself where it is none."""
        for name in self.names_behind(node):
            node = self.typedefs[name]
        return node

    def names_behind(self, node: c_ast.Node) -> Iterator[str]:
        """The typedef name that a node is, and those for which it stands."""
        while isinstance(node, c_ast.TypeDecl) and isinstance(node.type, c_ast.IdentifierType):
            name = node.type.names[0]
            if name not in self.typedefs or name == "__builtin_va_list":
                break
            yield name
            node = self.typedefs[name]

    def is_void(self, node: c_ast.Node) -> bool:
        node = self.behind(node)
        return isinstance(node, c_ast.TypeDecl) and getattr(node.type, "names", None) == ["void"]


def spelled(node: c_ast.Node, is_plain: bool = False) -> str:
    """The type of a parameter or result in C. A struct or an enum that is written out there has no name, and can be
    written once more only where no attribute or pragma says how it is laid out."""
    kind = node.type
    if isinstance(kind, c_ast.IdentifierType):
        return in_c(" ".join(kind.names))
    if kind.name:
        return f"{type(kind).__name__.lower()} {kind.name}"
    if not is_plain:
        raise Refused("a struct or an enum without a tag")
    return written(kind)


def value_of(node: c_ast.Node, is_plain: bool) -> str:
    """An expression of the type of a parameter or result; none for a pointer, which is asked nothing."""
    return "" if isinstance(node, c_ast.PtrDecl) else f"(*({spelled(node, is_plain)} *)0)"


def is_flat(node: c_ast.Node) -> bool:
    """Whether a declarator is a name, perhaps behind stars."""
    while isinstance(node, c_ast.PtrDecl):
        node = node.type
    return isinstance(node, c_ast.TypeDecl)


def written(node: c_ast.Node) -> str:
    """A node in C, on one line."""
    return in_c(" ".join(c_generator.CGenerator().visit(node).split()))


def in_c(words: str) -> str:
    """Words that pycparser has read, with those of GNU C in place of those that no C has."""
    return words.replace("long float", "_Float128").replace("short float", "_Float16")


written_once = lru_cache(maxsize=1 << 12)(written)  # of parameters, which many functions may share


# ---- functions

@dataclass
class Function:
    """A function of a header, as a target's compiler has it: its nodes, or the reason why there are none."""

    name: str
    target: str
    chunk: Chunk = field(repr=False)
    node: c_ast.Node | None = field(default=None, repr=False)
    prototype: c_ast.FuncDecl | None = field(default=None, repr=False)
    result: Kind | None = field(default=None, repr=False)
    arguments: tuple[Kind, ...] = field(default=(), repr=False)
    names: tuple[str, ...] = ()
    is_variadic: bool = False
    nodes: tuple[tuple[Node, ...], ...] = ()
    reason: str = ""

    @property
    def is_read(self) -> bool:
        return not self.reason

    @property
    def declaration(self) -> str:
        """The function's declaration as the header has it, without attributes and storage."""
        if self.node is None:
            return " ".join(self.chunk.words).rstrip(" ;")
        plain = copy.copy(self.node)
        plain.storage, plain.funcspec, plain.init = [], [], None
        if not isinstance(plain.type, c_ast.FuncDecl) or not plain.type.args or not is_flat(plain.type.type):
            return written(plain)
        listed = ", ".join(map(written_once, plain.type.args.params))
        plain.type = c_ast.FuncDecl(None, plain.type.type)
        return f"{written(plain).removesuffix(')')}{listed})"

    @property
    def fixed(self) -> int | None:
        """Of a variadic function how many arguments are named."""
        return len(self.arguments) if self.is_variadic else None

    def place(self, more: Sequence[Sequence[Node]] = ()) -> Call:
        """Where everything stands in a call, more types standing in the place of the dots of a variadic function."""
        return library.place_nodes(self.target, chain(*self.nodes, *more), self.fixed)

    def layout(self, part: library.Part) -> library.Type:
        """The layout of an argument, or of the result."""
        return library.layout_nodes(self.nodes[part + 1 if isinstance(part, int) else 0], self.target)

    def types(self) -> list[Kind]:
        return [kind for kind in (self.result, *self.arguments) if kind]

    def understand(self, definitions: Definitions, has_pragma: bool) -> None:
        """Finds the types, or the reason; has_pragma says that some pragma may have laid out structs."""
        is_plain, node = not has_pragma and LAYS_OUT.isdisjoint(self.chunk.raw), self.prototype
        listed = node.args.params if node and node.args else []
        self.is_variadic = bool(listed) and isinstance(listed[-1], c_ast.EllipsisParam)
        listed = listed[:-1] if self.is_variadic else listed
        by_name = (definitions.conventions.get(name) for name in definitions.names_behind(self.node and self.node.type))
        try:
            if convention := self.chunk.convention(self.target) or next(filter(None, by_name), ""):
                raise Refused(f"another calling convention: {convention}")
            if not node or not listed:
                raise Refused("no prototype")
            if len(listed) == 1 and definitions.is_void(listed[0].type):
                listed = []
            self.names = tuple(getattr(each, "name", None) or "" for each in listed)
            if not definitions.is_void(node.type):
                self.result = definitions.read(node.type, value_of(node.type, is_plain))
            self.arguments = tuple(definitions.parameter(each.type, is_plain) for each in listed)
        except Refused as refused:
            self.reason = str(refused)

    def tell(self, nodes_of: Callable[[Kind], tuple[Node, ...]]) -> None:
        """Finds the nodes, or the reason; the library is asked whether it places them."""
        try:
            self.nodes = (nodes_of(self.result) if self.result else ("void",), *map(nodes_of, self.arguments))
            self.place()
        except Refused as refused:
            self.reason = str(refused)
        except library.Error as error:
            self.reason = str(error)


# ---- the compiler

@dataclass(frozen=True)
class Compiler:
    """A compiler with its words, of a target. A note says in what it may differ from that target's own."""

    target: str
    words: tuple[str, ...]
    note: str = ""


def run(*words, **more) -> subprocess.CompletedProcess:
    """What a program says; Failed where it does not start."""
    # (a header may have bytes that are no UTF-8 in its comments and texts, and a compiler's faults are read in English)
    try:
        return subprocess.run([str(word) for word in words], capture_output=True, encoding="utf-8",
                              errors="surrogateescape", env={**os.environ, "LC_ALL": "C"}, **more)
    except OSError as error:
        raise Failed(f"{words[0]}: {error.strerror}") from None


def target_of(words: Sequence[str]) -> str:
    """The target that a compiler makes code for, by what it defines."""
    made = run(*words, "-dM", "-E", "-x", "c", os.devnull)
    defined = set(re.findall(r"^#define (\w+)", made.stdout, re.M))
    found = [target for target, names, other in TARGET_OF if names <= defined and other not in defined]
    if made.returncode or not found:
        raise Failed(made.stderr.strip() or f"{shlex.join(words)} makes code for none of {', '.join(library.TARGETS)}: "
                     f"pointers have 64 bits there, and riscv has registers for a double")
    return found[0]


def compiler_for(target: str | None = None, cc: str | None = None, folders: Iterable[str] = (),
                 defined: Iterable[str] = ()) -> Compiler:
    """The compiler of a target, or the one that is named, with folders of headers and macros.

    Without a target it is that of the compiler's code. Where a target's compiler is not found gcc is taken, and the
    note says so, as where the one that is named makes code for another target; for apple none is. Raises Failed where
    the compiler does not start, or makes code for no target."""
    words, note = shlex.split(cc or {**COMPILERS, "apple": APPLE}[target or "amd64"]), ""
    if cc:
        own = target_of(words)
        target = target or own
        if own != target:
            note = f"{cc} makes code for {own}: on {target} char, long, wchar_t and va_list are as it has them"
    elif target != "apple" and not shutil.which(words[0]):
        note = f"{words[0]} is not found: on {target} char, long, wchar_t and va_list are as gcc has them here"
        words = ["gcc"]
    target = target or target_of(words)
    # What a cross compiler has no headers for is taken from the host's, behind its own.
    behind = ["-idirafter", "/usr/include", "-idirafter", "/usr/include/x86_64-linux-gnu"]
    words += [*(f"-I{folder}" for folder in folders), *(f"-D{name}" for name in defined),
              *behind * (not cc and target not in ("amd64", "apple"))]
    return Compiler(target, tuple(words), note)


def preprocessed(compiler: Compiler, headers: Iterable[str], more: Iterable[str] = ()) -> str:
    """Headers as the compiler's preprocessor leaves them: those of files that are there, and else of its folders."""
    text = "".join(f'#include "{Path(header).resolve()}"\n' if Path(header).exists() else f"#include <{header}>\n"
                   for header in headers)
    made = run(*compiler.words, "-E", *more, "-x", "c", "-", input=text)
    if made.returncode:
        is_for_a_mac = "-nostdlibinc" in compiler.words and "file not found" in made.stderr
        raise Failed("\n".join([made.stderr.strip(), *[NO_SDK] * is_for_a_mac]))
    return made.stdout


DIGITS = 7  # of ten bits each


def asking(i: int, question: str) -> str:
    """A function by which a compiler writes the value of a constant expression into its assembly, the lowest of seven
    digits first. Each has ten bits: gcc writes no larger constant for RISC-V. A second constant divides by 0 where the
    first is not the value: a compiler for Windows has enums of 32 bits alone."""
    digits = ", ".join(f'"i" ((unsigned long long)n >> {10 * k} & 1023)' for k in range(DIGITS))
    marks = " ".join(f"%c{k}" for k in range(DIGITS))
    return (f'void ffi3_{i}(void) {{ enum {{ n = ({question}), m = 1 / (n == ({question})) }}; '
            f'__asm__(".ascii \\"@@ {i} {marks} @@\\"" : : {digits}); }}')


def answers_of(compiler: Compiler, text: str, questions: Iterable[str]) -> Answers:
    """The compiler's answers to constant expressions of natural numbers, none where it refuses the expression."""
    listed = list(dict.fromkeys(questions))
    with tempfile.TemporaryDirectory() as folder:
        file, refused = Path(folder, "asked.c"), set()
        while True:
            numbers = [i for i in range(len(listed)) if i not in refused]
            asked = [asking(i, listed[i]) for i in numbers]
            file.write_text("\n".join([text, '# 1 "asked"', *asked, ""]), "utf-8", "surrogateescape")
            made = run(*compiler.words, "-x", "cpp-output", "-w", "-S", "-O0", "-o", "-", file)
            if made.returncode == 0:
                found = re.findall(r"@@ (\d+)((?: \d+)+) @@", made.stdout)
                return Answers(compiler.target, {
                    listed[int(i)]: sum(int(digit) << 10 * k for k, digit in enumerate(digits.split()))
                    for i, digits in found})
            wrong = {numbers[int(line) - 1] for line in re.findall(r"^asked:(\d+):\d+: error", made.stderr, re.M)}
            if not wrong:
                raise Failed(made.stderr.strip())
            refused |= wrong


# ---- a header as a whole

Wanted = Callable[[Chunk], bool]


def files_in(text: str) -> list[str]:
    """The files of which a preprocessed text tells, in its order."""
    return list(dict.fromkeys(marker[2] for marker in map(MARKER.match, MARKED.findall(text)) if marker))


def real(file: str) -> Path:
    """Where a file stands, behind links."""
    return Path(os.path.realpath(file))


def located(files: Iterable[str], header: str) -> str:
    """The file among these that has a header's name."""
    return next((file for file in files if f"/{file}".endswith(f"/{header}")), header)


def is_of(whole: Path, part: Path) -> bool:
    """Whether a file is the header, or a part of it: in the header's own folder, or in the folder that has its name."""
    folder = whole.parent
    is_shared = folder.name == "include" or re.fullmatch(r"\w+-[\w-]*gnu\w*|sys", folder.name)
    return part == whole or whole.with_suffix("") in part.parents or not is_shared and folder in part.parents


def of_headers(text: str, headers: Iterable[str]) -> Wanted:
    """The chunks that stand in these headers and in their parts."""
    files = files_in(text)
    wholes = [real(located(files, header)) for header in headers]
    known: dict[str, bool] = {}

    def is_wanted(chunk: Chunk) -> bool:
        if chunk.owner not in known:
            part = real(chunk.owner)
            known[chunk.owner] = any(is_of(whole, part) for whole in wholes)
        return known[chunk.owner]

    return is_wanted


def functions_of(compiler: Compiler, text: str, is_wanted: Wanted, parser: Parser, tell: Tell) -> list[Function]:
    """The functions that a preprocessed text declares in the chunks that are wanted."""
    found = [chunk for chunk in chunks(text) if not chunk.is_function() or is_wanted(chunk)]
    made = parsed(found, parser, tell)
    transparent = {chunk.words[-2] for chunk in found if TRANSPARENT & set(chunk.raw)}
    conventions = {word: each for chunk in found if chunk.words[0] == "typedef"
                   and (each := chunk.convention(compiler.target)) for word in chunk.words}
    definitions = Definitions(made.defining, transparent, conventions)
    functions: dict[str, Function] = {}
    for chunk, node in made.declared:
        if type(node) is c_ast.Decl and is_wanted(chunk):
            prototype = definitions.behind(node.type)
            if isinstance(prototype, c_ast.FuncDecl):
                functions.setdefault(node.name, Function(node.name, compiler.target, chunk, node, prototype))
    has_pragma = PRAGMA.search(text) is not None
    for function in functions.values():
        function.understand(definitions, has_pragma)
    for chunk in made.left_out:
        if chunk.is_function():
            name = chunk.words[chunk.words.index("(") - 1]
            functions.setdefault(name, Function(name, compiler.target, chunk, reason="pycparser does not parse it"))
    understood = [function for function in functions.values() if function.is_read]
    kinds = {id(kind): kind for function in understood for kind in function.types()}
    tell("the compiler is asked for sizes")
    answers = answers_of(compiler, text, (question for kind in kinds.values() for question in kind.questions()))
    nodes: dict[int, tuple[Node, ...]] = {}

    def nodes_of(kind: Kind) -> tuple[Node, ...]:
        if id(kind) not in nodes:
            nodes[id(kind)] = kind.nodes(answers)
        return nodes[id(kind)]

    for i, function in enumerate(understood):
        if i % AT_ONCE == 0:
            tell(f"{i} of {len(understood)} functions are placed")
        function.tell(nodes_of)
    return list(functions.values())


def read(headers: str | Sequence[str], target: str | None = None, *, compiler: Compiler | None = None,
         names: Iterable[str] = (), is_wanted: Wanted | None = None, parser: Parser | None = None,
         tell: Tell = lambda _: None) -> list[Function]:
    """The functions that headers declare, those of these names if any are given, as a target's compiler has them.

    What headers include is left out, unless is_wanted takes it. A parser that has read them for another target is
    faster. tell is told of what is done. Raises Failed where the compiler reads nothing."""
    listed = [headers] if isinstance(headers, str) else list(headers)
    compiler, asked_for, parser = compiler or compiler_for(target), set(names), parser or Parser()
    tell("the compiler preprocesses")
    text = preprocessed(compiler, listed)
    if asked_for:
        found = functions_of(compiler, text, lambda chunk: not asked_for.isdisjoint(chunk.words), parser, tell)
        return [each for each in found if each.name in asked_for]
    return functions_of(compiler, text, is_wanted or of_headers(text, listed), parser, tell)


# ---- a header on several targets

@dataclass(frozen=True)
class Entry:
    """One function of a header on each target on which it is declared."""

    name: str
    by_target: dict[str, Function]

    @property
    def first(self) -> Function:
        """The function on the first target on which it is read, or else declared."""
        return next((each for each in self.by_target.values() if each.is_read), next(iter(self.by_target.values())))

    @property
    def is_read(self) -> bool:
        return self.first.is_read

    def reasons(self) -> dict[str, list[str]]:
        """Why it is not read, and the targets of each reason."""
        found: dict[str, list[str]] = {}
        for target, function in self.by_target.items():
            if not function.is_read:
                found.setdefault(function.reason, []).append(target)
        return found


def survey(headers: str | Sequence[str], compilers: Iterable[Compiler], names: Iterable[str] = (),
           is_wanted: Wanted | None = None, tell: Tell = lambda _: None) -> list[Entry]:
    """The functions of headers as each of these compilers has them; tell is told of what is done."""
    found: dict[str, dict[str, Function]] = {}
    parser = Parser()
    for compiler in compilers:
        def tell_on(words: str, target: str = compiler.target) -> None:
            tell(f"{target}: {words}")

        for function in read(headers, compiler=compiler, names=names, is_wanted=is_wanted, parser=parser, tell=tell_on):
            found.setdefault(function.name, {})[compiler.target] = function
    return [Entry(name, by_target) for name, by_target in found.items()]
