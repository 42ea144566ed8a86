"""Where C's calling standards put the arguments and the result of a function, and what a machine that entered it holds.

    import ffi3
    call = ffi3.place("riscv", "double f(struct { int i; float x; } a)")
    for piece in call.pieces:
        print(piece.part, piece.place, piece.offset, piece.length)      # 0 a0 0 4, 0 fa0 4 4, result fa0 0 8
    ffi3.layout("double f(struct { int i; float x; } a)", 0)            # size 8, align 4, two leaves
    ffi3.unexpected("riscv", "int f(FILE x)")                           # at 12 a ")": a FILE by value is not known
    ffi3.place_nodes("riscv", ["double", ("struct", 2), "sint32", "float"])         # the same call, without a text
    ffi3.layout_nodes([("struct", 2), "sint32", "float"])               # size 8, align 4, offsets 0 and 4, two leaves
    ffi3.arguments("riscv", "double f(struct { int i; float x; } a)", {"a0": 7, "fa0": 0x3f800000})     # [(7, 1.0)]

    kept = ffi3.Interface("riscv", ["double", ("struct", 2), "sint32", "float"])    # prepared once
    kept.moves("store")                                                 # what brings the values to their places
    kept.store(bytes([7, 0, 0, 0, 0, 0, 128, 63]))                      # registers by name, and the stack's bytes

    from ffi3 import headers                                            # wants pycparser and a compiler
    for function in headers.read("zlib.h", "riscv"):
        print(function.declaration, function.place().pieces if function.is_read else function.reason)

On the command line `python3 -m ffi3 --help` says what there is. `library` has the C library's calls, which are all here
too; `names` has the names of a prototype's parameters, `headers` reads C headers, `drawing` and `page` show where things
stand, `gdb` is to be sourced in gdb.
"""

import sys

try:
    from .library import (FRAME_AT, HIDDEN, MOVES, RESULT, TARGETS, VERSION, Argument, Call, Error, Interface, Layout,
                          Move, NoAddress, NotInStack, Piece, ShortStack, Sizes, Type, Unexpected, VersionError,
                          arguments, arguments_each, arguments_nodes, check_layout, fault_lines, layout, layout_nodes,
                          place, place_nodes, result, result_nodes, scalars, unexpected, version)
except (OSError, ImportError) as error:
    if sys.argv[:1] != ["-m"]:
        raise
    sys.exit(f"ffi3: {error}")  # to who runs the package as a program a line says enough

__all__ = ["FRAME_AT", "HIDDEN", "MOVES", "RESULT", "TARGETS", "VERSION", "Argument", "Call", "Error", "Interface",
           "Layout", "Move", "NoAddress", "NotInStack", "Piece", "ShortStack", "Sizes", "Type", "Unexpected",
           "VersionError", "arguments", "arguments_each", "arguments_nodes", "check_layout", "fault_lines", "layout",
           "layout_nodes", "place", "place_nodes", "result", "result_nodes", "scalars", "unexpected", "version"]
