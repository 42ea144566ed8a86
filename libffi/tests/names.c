/* Prints each number that ffi.h gives to a program: constants, sizes, offsets. Built with this library's headers and
 * with libffi's own, it has to print the same. */
#include <ffi.h>
#include <stdio.h>

#define NUMBER(it) printf("%s %ld\n", #it, (long)(it))
#define FIELD(type, field) printf("%s.%s %zu %zu\n", #type, #field, offsetof(type, field), sizeof(((type *)0)->field))
#define TYPE(type) printf("%s %zu %zu\n", #type, sizeof(type), _Alignof(type))

int main(void)
{
    NUMBER(FFI_TYPE_VOID), NUMBER(FFI_TYPE_INT), NUMBER(FFI_TYPE_FLOAT), NUMBER(FFI_TYPE_DOUBLE);
    NUMBER(FFI_TYPE_LONGDOUBLE), NUMBER(FFI_TYPE_UINT8), NUMBER(FFI_TYPE_SINT8), NUMBER(FFI_TYPE_UINT16);
    NUMBER(FFI_TYPE_SINT16), NUMBER(FFI_TYPE_UINT32), NUMBER(FFI_TYPE_SINT32), NUMBER(FFI_TYPE_UINT64);
    NUMBER(FFI_TYPE_SINT64), NUMBER(FFI_TYPE_STRUCT), NUMBER(FFI_TYPE_POINTER), NUMBER(FFI_TYPE_COMPLEX);
    NUMBER(FFI_TYPE_LAST), NUMBER(FFI_OK), NUMBER(FFI_BAD_TYPEDEF), NUMBER(FFI_BAD_ABI), NUMBER(FFI_BAD_ARGTYPE);
    NUMBER(FFI_FIRST_ABI), NUMBER(FFI_LAST_ABI), NUMBER(FFI_DEFAULT_ABI), NUMBER(FFI_WIN64);
#ifdef __x86_64__
    NUMBER(FFI_UNIX64), NUMBER(FFI_EFI64), NUMBER(FFI_GNUW64);
#else
    NUMBER(FFI_SYSV);
#endif
    NUMBER(FFI_CLOSURES), NUMBER(FFI_GO_CLOSURES), NUMBER(FFI_NATIVE_RAW_API), NUMBER(FFI_TRAMPOLINE_SIZE);
    NUMBER(FFI_SIZEOF_ARG), NUMBER(FFI_SIZEOF_JAVA_RAW), NUMBER((ffi_sarg)-1 < 0), NUMBER((ffi_arg)-1 > 0);
    TYPE(ffi_type), FIELD(ffi_type, size), FIELD(ffi_type, alignment), FIELD(ffi_type, type), FIELD(ffi_type, elements);
    TYPE(ffi_cif), FIELD(ffi_cif, abi), FIELD(ffi_cif, nargs), FIELD(ffi_cif, arg_types), FIELD(ffi_cif, rtype);
    FIELD(ffi_cif, bytes), FIELD(ffi_cif, flags), TYPE(ffi_arg), TYPE(ffi_sarg), TYPE(ffi_status), TYPE(ffi_abi);
    TYPE(ffi_closure), FIELD(ffi_closure, tramp), FIELD(ffi_closure, ftramp), FIELD(ffi_closure, cif);
    FIELD(ffi_closure, fun), FIELD(ffi_closure, user_data), TYPE(ffi_raw), TYPE(ffi_java_raw), FIELD(ffi_raw, data);
    TYPE(ffi_raw_closure), FIELD(ffi_raw_closure, cif), FIELD(ffi_raw_closure, translate_args);
    FIELD(ffi_raw_closure, this_closure), FIELD(ffi_raw_closure, fun), FIELD(ffi_raw_closure, user_data);
    TYPE(ffi_java_raw_closure), FIELD(ffi_java_raw_closure, fun), FIELD(ffi_java_raw_closure, user_data);
    TYPE(ffi_go_closure), FIELD(ffi_go_closure, tramp), FIELD(ffi_go_closure, cif), FIELD(ffi_go_closure, fun);
    static const struct { const char *name; const ffi_type *type; } types[] = {
        {"void", &ffi_type_void}, {"uint8", &ffi_type_uint8}, {"sint8", &ffi_type_sint8}, {"uint16", &ffi_type_uint16},
        {"sint16", &ffi_type_sint16}, {"uint32", &ffi_type_uint32}, {"sint32", &ffi_type_sint32},
        {"uint64", &ffi_type_uint64}, {"sint64", &ffi_type_sint64}, {"float", &ffi_type_float},
        {"double", &ffi_type_double}, {"longdouble", &ffi_type_longdouble}, {"pointer", &ffi_type_pointer},
        {"complex_float", &ffi_type_complex_float}, {"complex_double", &ffi_type_complex_double},
        {"complex_longdouble", &ffi_type_complex_longdouble}, {"uchar", &ffi_type_uchar}, {"schar", &ffi_type_schar},
        {"ushort", &ffi_type_ushort}, {"sshort", &ffi_type_sshort}, {"uint", &ffi_type_uint}, {"sint", &ffi_type_sint},
        {"ulong", &ffi_type_ulong}, {"slong", &ffi_type_slong},
    };
    for (size_t k = 0; k < sizeof types / sizeof *types; k++)
        printf("%s: %zu %u %u %d\n", types[k].name, types[k].type->size, types[k].type->alignment, types[k].type->type,
               types[k].type->elements != NULL);
    return 0;
}
