"""GLib over this library: GObject's signals, whose values go to closures by g_cclosure_marshal_generic. It is asked by
ctypes, which calls and is called over this library too."""
import ctypes
from ctypes import CFUNCTYPE, POINTER, c_char_p, c_double, c_float, c_int, c_int64, c_uint, c_ulong, c_void_p

library = ctypes.CDLL("libgobject-2.0.so.0")


def of(name, result, *arguments):
    found = getattr(library, name)
    found.restype, found.argtypes = result, arguments
    return found


OBJECT, DOUBLE, FLOAT, INT, INT64, TEXT, BOOLEAN = 80, 60, 56, 24, 40, 64, 20  # GType of each
HANDLER = CFUNCTYPE(c_double, c_void_p, c_int, c_double, c_char_p, c_float, c_int64, c_int, c_double, c_int, c_void_p)
seen = []


@HANDLER
def handler(instance, *values):
    seen.append((instance, *values))
    return values[1] * 2


signal = of("g_signal_new", c_uint, c_char_p, c_ulong, c_int, c_uint, c_void_p, c_void_p, c_void_p, c_ulong, c_uint)
types = [INT, DOUBLE, TEXT, FLOAT, INT64, BOOLEAN, DOUBLE, INT]
signal(b"told", OBJECT, 2, 0, None, None, None, DOUBLE, len(types), *map(c_ulong, types))
thing = of("g_object_new", c_void_p, c_ulong, c_void_p)(OBJECT, None)
of("g_signal_connect_data", c_ulong, c_void_p, c_char_p, HANDLER, c_void_p, c_void_p, c_int)(
    thing, b"told", handler, 7, None, 0)
answer = c_double()
of("g_signal_emit_by_name", None, c_void_p, c_char_p)(
    thing, b"told", c_int(-5), c_double(2.25), c_char_p(b"abc"), c_double(0.5), c_int64(-(1 << 40)), c_int(1),
    c_double(-1.5), c_int(9), ctypes.byref(answer))
assert seen == [(thing, -5, 2.25, b"abc", 0.5, -(1 << 40), 1, -1.5, 9, 7)], seen
assert answer.value == 4.5, answer
print(*sorted({line.split()[-1] for line in open("/proc/self/maps") if "libffi.so" in line}), sep="\n")
