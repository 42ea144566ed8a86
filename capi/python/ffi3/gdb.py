"""Commands of gdb that print what a function was called with, and what it gave back, without debug information.

    (gdb) source capi/python/ffi3/gdb.py
    (gdb) break *(long)&deflateInit2_
    (gdb) run
    (gdb) ffi3-args deflateInit2_ in zlib.h             the prototype is that of the header
    (gdb) ffi3-args double weigh(struct { int id; float weight; } item, const char *label, double scale)
    (gdb) ffi3-args printf in stdio.h : int, double     with the types of what stands in the place of the dots
    (gdb) finish
    (gdb) ffi3-result deflateInit2_ in zlib.h

`help ffi3-args` and `help ffi3-result` say more. debugger.py has what they do.
"""

import sys
from pathlib import Path

import gdb

sys.path.insert(0, str(Path(__file__).resolve().parents[1]))

try:
    from ffi3 import debugger
except ModuleNotFoundError as error:
    if error.name != "pycparser":
        raise
    gdb.write(f"ffi3: prototypes are read with pycparser, which gdb's own Python, {sys.version.split()[0]} of "
              f"{sys.prefix}, does not find: python3-pycparser of Debian has it for /usr\n", gdb.STDERR)
except (OSError, ImportError) as error:
    gdb.write(f"ffi3: {error}\n", gdb.STDERR)
else:
    debugger.Arguments()
    debugger.Result()
