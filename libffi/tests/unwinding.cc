// Exceptions, longjmp and backtraces through calls and closures.  unwinding  links -lffi.
#include <csetjmp>
#include <cstdio>
#include <execinfo.h>
#include <ffi.h>
#include <stdexcept>
#include <string>

static int failed;

#define EXPECT(holds)                                                  \
    do {                                                               \
        if (!(holds)) {                                                \
            failed++;                                                  \
            std::printf("%s:%d: not so: %s\n", __FILE__, __LINE__, #holds); \
        }                                                              \
    } while (0)

static void *code;
static int frames, left;

static void thrower(ffi_cif *, void *, void **values, void *)
{
    void *addresses[64];
    frames = backtrace(addresses, 64);
    throw std::runtime_error(*static_cast<int *>(values[0]) ? "one" : "none");
}

struct Leaves {
    ~Leaves() { left++; }
};

static int caller(int number)
{
    Leaves leaves;
    return reinterpret_cast<int (*)(int)>(code)(number) + 1;
}

static std::jmp_buf before;

static void jump() { std::longjmp(before, 1); }

static void *made(ffi_cif *cif)
{
    void *at = nullptr;
    ffi_closure *closure = static_cast<ffi_closure *>(ffi_closure_alloc(sizeof *closure, &at));
    EXPECT(closure && ffi_prep_closure_loc(closure, cif, thrower, nullptr, at) == FFI_OK);
    return at;
}

#ifdef __x86_64__
__attribute__((ms_abi)) static int caught_by_win64(__attribute__((ms_abi)) int (*call)(int))
{
    try {
        return call(1);
    } catch (const std::exception &) {
        return 77;
    }
}
#endif

int main()
{
    ffi_cif cif, nothing;
    ffi_type *types[] = {&ffi_type_sint32};
    EXPECT(ffi_prep_cif(&cif, FFI_DEFAULT_ABI, 1, &ffi_type_sint32, types) == FFI_OK);
    EXPECT(ffi_prep_cif(&nothing, FFI_DEFAULT_ABI, 0, &ffi_type_void, nullptr) == FFI_OK);
    code = made(&cif);
    for (int number = 0; number < 2; number++) {
        void *values[] = {&number};
        ffi_arg result;
        std::string text;
        try {
            ffi_call(&cif, FFI_FN(caller), &result, values);
        } catch (const std::exception &error) {
            text = error.what();
        }
        EXPECT(text == (number ? "one" : "none"));
        EXPECT(left == number + 1);
        EXPECT(frames >= 7); // thrower, the closure's, caller, the call's, main, and what started it
    }
    bool is_back = setjmp(before);
    if (!is_back)
        ffi_call(&nothing, jump, nullptr, nullptr);
    EXPECT(is_back);
#ifdef __x86_64__
    ffi_cif win64;
    EXPECT(ffi_prep_cif(&win64, FFI_GNUW64, 1, &ffi_type_sint32, types) == FFI_OK);
    EXPECT(caught_by_win64(reinterpret_cast<__attribute__((ms_abi)) int (*)(int)>(made(&win64))) == 77);
#endif
    std::printf("%d failed\n", failed);
    return failed != 0;
}
