"""cffi over this library: integers, floats, a struct as a result and by value, and a closure that C calls."""
import cffi

ffi = cffi.FFI()
ffi.cdef("""typedef struct { int quot, rem; } div_t; div_t div(int, int); size_t strlen(const char *);
            void qsort(void *, size_t, size_t, int (*)(const void *, const void *));
            struct in_addr { uint32_t s_addr; }; char *inet_ntoa(struct in_addr);""")
c = ffi.dlopen(None)
both = c.div(-17, 5)
assert (both.quot, both.rem, c.strlen(b"seven..")) == (-3, -2, 7)
assert ffi.string(c.inet_ntoa(ffi.new("struct in_addr *", [0x0100007F])[0])) == b"127.0.0.1"
numbers = ffi.new("int[]", [5, -3, 9, 0])
order = ffi.callback("int(const void *, const void *)", lambda a, b: ffi.cast("int *", a)[0] - ffi.cast("int *", b)[0])
c.qsort(numbers, 4, 4, order)
assert list(numbers) == [-3, 0, 5, 9]
print(*sorted({line.split()[-1] for line in open("/proc/self/maps") if "libffi" in line}), sep="\n")
