"""The package as a program: python3 -m ffi3 --help"""

import argparse
import json
import os
import sys
import time
from collections.abc import Callable, Sequence
from pathlib import Path

from . import RESULT, TARGETS, Error, NotInStack, ShortStack, arguments, layout, place, version
from .names import names_or_numbers

HELP = """\
Where C's calling standards put the arguments and the result of a function.

Of a prototype:
  python3 -m ffi3 place riscv "double f(struct { int i; float x; } a)"
  python3 -m ffi3 layout "double f(struct { int i; float x; } a)"
  python3 -m ffi3 arguments riscv "double f(struct { int i; float x; } a)" a0=7 fa0=0x3f800000
  python3 -m ffi3 svg call.svg "double f(struct { int i; float x; } a)"
Of a header, as its compiler reads it:
  python3 -m ffi3 header zlib.h --target riscv --function crc32
  python3 -m ffi3 svg crc32.svg crc32 --header zlib.h
  python3 -m ffi3 page zlib.h -o zlib.html
"""

PLACE = """\
  python3 -m ffi3 place riscv "double f(struct { int i; float x; } a)"

prints what a caller passes and what comes back, by the arguments' numbers from 0 on:

  frame of 0 bytes
  0: a0 has bytes 0 to 3
  0: fa0 has bytes 4 to 7, the rest ones
  result: fa0 has bytes 0 to 7

Bytes stand in the low bytes of a register, and where nothing is said of its rest that is free. A rest that is extended
repeats the value's sign, or is zeros. stack+8 is 8 bytes from where stack arguments begin. A large value is copied to
the caller's frame, and a place has the address of frame+OFFSET; `hidden` is the address of where a large result is
left. An int has 32 bits and a long 64 on every target: the long of Windows is written int. What has typedefs and enums
`header` reads, as a compiler does.
"""

LAYOUT = """\
  python3 -m ffi3 layout "double f(struct { int i; float x; } a)"

prints for each argument, from 0 on, and for the result the offset and the type of every scalar:

  0: size 8, align 4, leaves 0:sint32 4:float
  result: size 8, align 8, leaves 0:double
"""

SVG = """\
  python3 -m ffi3 svg call.svg "double f(struct { int i; float x; } a)"
  python3 -m ffi3 svg crc32.svg crc32 --header zlib.h --target amd64 --target win64

Each row is eight bytes, the lowest at the left: of a register, or of the stack at the call, from the first stack
argument on. `x: 0-3` are the bytes 0 to 3 of x, `@ of x` is the address of its copy.
"""

PAGE = """\
  python3 -m ffi3 page zlib.h -o zlib.html
  python3 -m ffi3 page zlib.h --target amd64 --target win64 --function crc32 -o crc32.html

The page needs no server and no network: a browser opens the file. It has a list of functions with a search, for the
chosen one a drawing by each standard, and for each piece the rule that placed it. Compilers are those of `header`,
whose help says how a Mac's headers are read.
"""

PLACES = """\
A piece REGISTER:OFFSET+LENGTH has LENGTH bytes of the value, from its byte OFFSET on, in the low bytes of the register;
stack8:0+4 has them 8 bytes behind where stack arguments begin. `ref REGISTER copy OFFSET` has the address of a copy,
which stands at OFFSET of the caller's frame. `buffer` is the address of where the callee leaves a large result.

  python3 -m ffi3 header zlib.h                         every function, on all but apple
  python3 -m ffi3 header zlib.h --target riscv --function crc32
  python3 -m ffi3 header SDL.h -I /usr/include/SDL2 -D SDL_DISABLE_IMMINTRIN_H --json
  python3 -m ffi3 header w.h --cc "clang --target=x86_64-pc-windows-msvc"     as Windows' compilers have long, wchar_t
  python3 -m ffi3 header w.h --target amd64 --target apple

The compiler of each target preprocesses and is asked for sizes, signs and offsets: gcc, aarch64-linux-gnu-gcc,
riscv64-linux-gnu-gcc, x86_64-w64-mingw32-gcc; for apple clang, which has headers of its own, as stdint.h, and no others
of a Mac: --cc "clang --target=arm64-apple-macos -isysroot SDK" reads with those. What is not read is listed with its
reason, and nothing is guessed. Headers are those of C, not of C++. Functions of what a header includes are told where
it is a part of the header's own folder, as SDL_render.h is of SDL.h; --all tells all.

--json has `version`, 1; `headers`; of each target its compiler; and of each function `name`, `declaration`, `file`,
`line`, `parameters`, `variadic` and `targets`. Of a target that is either `reason`, or `result` and `arguments` in
nodes, as ffi3.place_nodes takes them, `fixed`, and `need`, `frame`, `vectors` and `pieces` as ffi3.Call has them.
"""


ARGUMENTS = """\
  python3 -m ffi3 arguments aapcs64 "int f(int a, double b)" x0=7 v0=0x3ff0000000000000
  python3 -m ffi3 arguments amd64 "int f(int a, double b)" rdi=7 xmm0=0x3ff0000000000000 --stack 9e10400000000000

On amd64 and win64 the return address stands first on the stack, in 8 bytes, and on win64 the shadow store of 32 behind
it. Each argument is a line of its scalars.
"""


class Progress:
    """Says on a terminal what is done, where it takes longer than a second."""

    def __init__(self):
        self.begun = time.monotonic()
        self.is_shown = sys.stderr.isatty()
        self.is_written = False

    def __call__(self, words: str) -> None:
        if self.is_shown and time.monotonic() - self.begun > 1:
            print(f"\r\33[Kffi3: {words}", end="", file=sys.stderr, flush=True)
            self.is_written = True

    def end(self) -> None:
        """Takes the words away."""
        if self.is_written:
            print("\r\33[K", end="", file=sys.stderr, flush=True)


def _place(words) -> int:
    call = place(words.target, words.declaration)
    print(call.shown(names_or_numbers(words.declaration, call.arguments)))
    return 0


def _layout(words) -> int:
    called = names_or_numbers(words.declaration, layout(words.declaration).arguments)
    for part, name in (*enumerate(called), (RESULT, RESULT)):
        told = layout(words.declaration, part)
        leaves = " ".join(f"{at}:{kind}" for at, kind in told.leaves)
        print(f"{name}: size {told.size}, align {told.align}{', leaves ' * bool(leaves)}{leaves}")
    return 0


def _arguments(words) -> int:
    try:
        found = arguments(words.target, words.declaration, dict(words.registers), words.sp, words.stack)
    except KeyError as error:
        words.parser.error(error.args[0])
    for name, value in zip(names_or_numbers(words.declaration, len(found)), found):
        print(f"{name}: {', '.join(map(str, value))}")
    return 0


def _surveyed(words, names: Sequence[str]):
    """The compilers that the words ask for, and what they read."""
    from . import headers
    targets = words.target or (headers.COMPILERS if words.cc is None else [None])
    compilers = [headers.compiler_for(target, words.cc, words.folders, words.defined) for target in targets]
    for note in dict.fromkeys(each.note for each in compilers if each.note):
        print(f"ffi3: {note}", file=sys.stderr)
    progress = Progress()
    try:
        entries = headers.survey(words.headers, compilers, names, (lambda _: True) if words.all else None, progress)
    finally:
        progress.end()
    if missing := set(names) - {entry.name for entry in entries}:
        raise headers.Failed(f"not declared: {', '.join(sorted(missing))}")
    return compilers, entries


def _header(words) -> int:
    from . import listing
    compilers, entries = _surveyed(words, words.function)
    if words.json:
        print(json.dumps(listing.as_json(words.headers, compilers, entries), indent=1))
    else:
        for line in listing.lines(entries):
            print(line)
    read = sum(entry.is_read for entry in entries)
    print(f"ffi3: {read} of {len(entries)} functions are read", file=sys.stderr)
    return 0 if read else 1


def _svg(words) -> int:
    from . import drawing
    if not words.headers:
        if words.folders or words.defined or words.cc or words.all:
            words.parser.error("-I, -D, --cc and --all are of --header")
        text = drawing.svg(words.declaration, words.target or TARGETS)
    else:
        _, [entry] = _surveyed(words, [words.declaration])
        if not entry.is_read:
            from .headers import Failed
            raise Failed(f"{entry.name}: {entry.first.reason}")
        text = drawing.drawn(drawing.of_entry(entry))
    Path(words.file).write_text(text, "utf-8")
    return 0


def _page(words) -> int:
    from . import page
    compilers, entries = _surveyed(words, words.function)
    beside = Path(__file__).resolve().parents[3] / "docs/RULES.md"
    link = words.rules or (beside.as_uri() if beside.exists() else "")
    name = words.output or f"{Path(words.headers[0]).stem}.html"
    notes = dict.fromkeys(each.note for each in compilers if each.note)
    Path(name).write_text(page.html(" ".join(words.headers), entries, list(notes), link), "utf-8")
    print(f"ffi3: {name} shows {sum(entry.is_read for entry in entries)} of {len(entries)} functions", file=sys.stderr)
    return 0


def _bits(text: str) -> int:
    """64 bits, in decimal or with 0x in front."""
    try:
        value = int(text, 0)
    except ValueError:
        value = -1
    if not 0 <= value < 1 << 64:
        raise argparse.ArgumentTypeError(f"{text!r} is no number from 0 to {(1 << 64) - 1:#x}")
    return value


def _memory(text: str) -> bytes:
    try:
        return bytes.fromhex(text)
    except ValueError:
        raise argparse.ArgumentTypeError(f"{text!r} is not bytes of two hexadecimal digits each") from None


def _register(text: str) -> tuple[str, int]:
    name, mark, value = text.partition("=")
    if not mark:
        raise argparse.ArgumentTypeError(f"{text!r} has no =, as a0=7 has")
    return name, _bits(value)


ONE_OF = f"{', '.join(TARGETS[:-1])} or {TARGETS[-1]}"


def _with_compiler(parser: argparse.ArgumentParser) -> None:
    parser.add_argument("--target", action="append", choices=TARGETS, metavar="TARGET",
                        help=f"{ONE_OF}; may be given again; else all, of headers all but apple")
    parser.add_argument("-I", action="append", default=[], dest="folders", metavar="DIR", help="a folder of headers")
    parser.add_argument("-D", action="append", default=[], dest="defined", metavar="NAME[=VALUE]", help="a macro")
    parser.add_argument("--cc", help="the compiler with its words, and where --target is not given its target")
    parser.add_argument("--all", action="store_true", help="also the functions of what the headers include")


def _parser() -> argparse.ArgumentParser:
    raw = argparse.RawDescriptionHelpFormatter
    parser = argparse.ArgumentParser(prog="python3 -m ffi3", description=HELP, formatter_class=raw)
    parser.add_argument("--version", action="version", version=f"ffi3 {version()}")
    commands = parser.add_subparsers(dest="command", metavar="COMMAND")

    def command(name: str, does: Callable, what: str, more: str = "") -> argparse.ArgumentParser:
        made = commands.add_parser(name, help=what, description=f"{what[0].upper()}{what[1:]}.\n\n{more}",
                                   formatter_class=raw)
        made.set_defaults(does=does, parser=made)
        return made

    made = command("place", _place, "where a function's arguments and result stand, a line a piece", PLACE)
    made.add_argument("target", choices=TARGETS, metavar="TARGET", help=ONE_OF)
    made.add_argument("declaration", metavar="DECLARATION", help="the function's declaration in C")
    made = command("layout", _layout, "size, alignment and scalars of each argument and of the result", LAYOUT)
    made.add_argument("declaration", metavar="DECLARATION", help="the function's declaration in C")
    made = command("arguments", _arguments, "what a function was called with, from registers and stack at its entry",
                   ARGUMENTS)
    made.add_argument("target", choices=TARGETS, metavar="TARGET", help=ONE_OF)
    made.add_argument("declaration", metavar="DECLARATION", help="the function's declaration in C")
    made.add_argument("registers", nargs="*", type=_register, metavar="REGISTER=VALUE",
                      help="64 bits; what is not named holds 0")
    made.add_argument("--sp", type=_bits, default=0, help="the stack pointer")
    made.add_argument("--stack", type=_memory, default=b"", help="the bytes from there on, in hexadecimal")
    made = command("header", _header, "every function of a C header with its places, and what is not read", PLACES)
    made.add_argument("headers", nargs="+", metavar="FILE.h")
    made.add_argument("--function", action="append", default=[], metavar="NAME",
                      help="only this one; may be given again")
    made.add_argument("--json", action="store_true", help="for programs: types as nodes, pieces with all that is known")
    _with_compiler(made)
    made = command("svg", _svg, "a drawing of registers and stack, each argument in a colour of its own", SVG)
    made.add_argument("file", metavar="FILE.svg")
    made.add_argument("declaration", metavar="DECLARATION",
                      help="the function's declaration in C, or its name in a header")
    made.add_argument("--header", action="append", default=[], dest="headers", metavar="FILE.h")
    _with_compiler(made)
    made = command("page", _page, "one page of HTML that draws every function of a header, and works from the disk",
                   PAGE)
    made.add_argument("headers", nargs="+", metavar="FILE.h")
    made.add_argument("-o", dest="output", metavar="FILE.html", help="else the first header's name with .html")
    made.add_argument("--function", action="append", default=[], metavar="NAME",
                      help="only this one; may be given again")
    made.add_argument("--rules", metavar="URL", help="where docs/RULES.md stands, for the page's links")
    _with_compiler(made)
    return parser


def _failures() -> tuple[type[BaseException], ...]:
    """What is told in a line and ends the program with status 1."""
    found: list[type[BaseException]] = [Error, ShortStack, NotInStack, OSError]
    if "ffi3.headers" in sys.modules:
        found.append(sys.modules["ffi3.headers"].Failed)
    return tuple(found)


def _shown_fault(error: BaseException, declaration: str) -> list[str]:
    """Where in a declaration a fault is: the line that has it, and a mark below."""
    if not isinstance(error, Error) or not str(error).startswith(f"at {error.offset}: "):
        return []
    before = declaration.encode()[:error.offset].decode(errors="replace")
    line = declaration.split("\n")[before.count("\n")]
    return [f"  {line}", f"  {' ' * len(before.rpartition(chr(10))[2])}^"] if line.strip() else []


def main(words: Sequence[str] | None = None) -> int:
    """Does what the words of the command line say, and answers the status."""
    parser = _parser()
    given = parser.parse_args(words)
    if not given.command:
        parser.print_help(sys.stderr)
        return 2
    try:
        return given.does(given)
    except ModuleNotFoundError as error:
        if error.name != "pycparser":
            raise
        print("ffi3: headers are read with pycparser: pip install pycparser, or python3-pycparser of Debian",
              file=sys.stderr)
        return 1
    except BrokenPipeError:  # who reads has read enough, as head does
        os.dup2(os.open(os.devnull, os.O_WRONLY), sys.stdout.fileno())
        return 1
    except _failures() as error:
        print(f"ffi3: {error}", *_shown_fault(error, getattr(given, "declaration", "")), sep="\n", file=sys.stderr)
        return 1


if __name__ == "__main__":
    sys.exit(main())
