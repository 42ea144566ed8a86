/* libffi in the place of a compiler: its closures are the callees, ffi_call is the caller. The first word of the
   command line names a file with one signature a line, in the text of docs/FORMATS.md, section 3, without arrays.
   ABI is the convention by which all are prepared. */
#include <alloca.h>
#include <stdio.h>
#include <stdlib.h>
#include <string.h>

#include "player.h"
#include "../shared/wide.h"

#define MOST_LEAVES 4096
#define MOST_ARGUMENTS 64

struct signature {
    ffi_cif cif;
    ffi_type *result, *arguments[MOST_ARGUMENTS];
    unsigned count, fixed;
    struct layout result_layout, argument_layouts[MOST_ARGUMENTS];
};

static struct signature *signatures;
static struct chunk chunk;
const struct chunk *chunks = &chunk;
int chunk_count = 1;

static const struct {
    const char *name;
    ffi_type *type;
} scalars[] = {
    { "void", &ffi_type_void }, { "uint8", &ffi_type_uint8 }, { "sint8", &ffi_type_sint8 },
    { "uint16", &ffi_type_uint16 }, { "sint16", &ffi_type_sint16 }, { "uint32", &ffi_type_uint32 },
    { "sint32", &ffi_type_sint32 }, { "uint64", &ffi_type_uint64 }, { "sint64", &ffi_type_sint64 },
    { "uint128", &type_uint128 }, { "sint128", &type_sint128 }, { "float", &ffi_type_float },
    { "double", &ffi_type_double }, { "pointer", &ffi_type_pointer },
};

static void stop(const char *why, const char *text)
{
    fprintf(stderr, "libffi: %s: %s\n", why, text);
    exit(2);
}

static ffi_type *read_type(char **text)
{
    if (!strncmp(*text, "struct{", 7)) {
        ffi_type *type = calloc(1, sizeof *type);
        unsigned count = 0;
        type->type = FFI_TYPE_STRUCT;
        type->elements = calloc(MOST_LEAVES + 1, sizeof *type->elements);
        for (*text += 6; **text != '}';) {
            ++*text;
            type->elements[count++] = read_type(text);
        }
        ++*text;
        type->elements = realloc(type->elements, (count + 1) * sizeof *type->elements);
        return type;
    }
    for (unsigned k = 0; k < sizeof scalars / sizeof *scalars; k++) {
        size_t length = strlen(scalars[k].name);
        if (!strncmp(*text, scalars[k].name, length)) {
            *text += length;
            return scalars[k].type;
        }
    }
    stop("no type", *text);
    return 0;
}

static char kind_of(ffi_type *type)
{
    if (type == &type_uint128 || type == &type_sint128)
        return type == &type_uint128 ? 'u' : 's';
    switch (type->type) {
    case FFI_TYPE_UINT8: case FFI_TYPE_UINT16: case FFI_TYPE_UINT32: case FFI_TYPE_UINT64: return 'u';
    case FFI_TYPE_SINT8: case FFI_TYPE_SINT16: case FFI_TYPE_SINT32: case FFI_TYPE_SINT64: return 's';
    case FFI_TYPE_FLOAT: case FFI_TYPE_DOUBLE: return 'f';
    case FFI_TYPE_POINTER: return 'p';
    default: return '?';
    }
}

/* The leaves of a type whose struct has been laid out by ffi_prep_cif, from the offsets that libffi tells. */
static void add_leaves(ffi_type *type, unsigned start, unsigned *count, unsigned short *at, unsigned char *length,
                       char *kind)
{
    if (type->elements == two_longs || !type->elements) {
        at[*count] = start;
        kind[*count] = kind_of(type);
        length[(*count)++] = type->size;
        return;
    }
    size_t offsets[MOST_LEAVES];
    if (ffi_get_struct_offsets(ABI, type, offsets) != FFI_OK)
        stop("ffi_get_struct_offsets", "refused");
    for (unsigned k = 0; type->elements[k]; k++)
        add_leaves(type->elements[k], start + offsets[k], count, at, length, kind);
}

static struct layout layout_of(ffi_type *type)
{
    unsigned short at[MOST_LEAVES];
    unsigned char length[MOST_LEAVES];
    char kind[MOST_LEAVES];
    unsigned count = 0;
    add_leaves(type, 0, &count, at, length, kind);
    return (struct layout){ type->size, type->alignment, count,
                            memcpy(malloc(count * sizeof *at), at, count * sizeof *at),
                            memcpy(malloc(count), length, count), memcpy(malloc(count), kind, count) };
}

static size_t room(size_t size)
{
    return size < 16 ? 16 : size;
}

/* ffi_call calls the player. The arguments are on the stack, since libffi 3.4.4 passes the address of a small struct
   without a copy on Microsoft x64. */
static void caller(function *called)
{
    struct signature *signature = signatures + current;
    void *values[MOST_ARGUMENTS], *result = alloca(room(signature->result->size));
    for (unsigned k = 0; k < signature->count; k++)
        argument_out(values[k] = alloca(room(signature->arguments[k]->size)), &signature->argument_layouts[k]);
    ffi_call(&signature->cif, called, result, values);
    if (signature->result != &ffi_type_void)
        result_in(result, &signature->result_layout);
}

/* A closure's function. A narrow integer is handed back as libffi wants it, widened to an ffi_arg. */
static void closure(ffi_cif *cif, void *result, void **values, void *user)
{
    struct signature *signature = user;
    int64_t bytes = 0;
    for (unsigned k = 0; k < cif->nargs; k++)
        argument_in(values[k], &signature->argument_layouts[k]);
    switch (signature->result->type) {
    case FFI_TYPE_VOID: break;
    case FFI_TYPE_UINT8: result_out(&bytes, &signature->result_layout); *(ffi_arg *)result = (uint8_t)bytes; break;
    case FFI_TYPE_SINT8: result_out(&bytes, &signature->result_layout); *(ffi_sarg *)result = (int8_t)bytes; break;
    case FFI_TYPE_UINT16: result_out(&bytes, &signature->result_layout); *(ffi_arg *)result = (uint16_t)bytes; break;
    case FFI_TYPE_SINT16: result_out(&bytes, &signature->result_layout); *(ffi_sarg *)result = (int16_t)bytes; break;
    case FFI_TYPE_UINT32: result_out(&bytes, &signature->result_layout); *(ffi_arg *)result = (uint32_t)bytes; break;
    case FFI_TYPE_SINT32: result_out(&bytes, &signature->result_layout); *(ffi_sarg *)result = (int32_t)bytes; break;
    default: result_out(result, &signature->result_layout);
    }
}

static function *prepare(struct signature *signature, char *text)
{
    char *at = text;
    void *code;
    int is_variadic = 0;
    signature->result = read_type(&at);
    for (at++; *at != ')';) {
        if (*at == ';') {
            is_variadic = 1;
            signature->fixed = signature->count;
            at++;
            continue;
        }
        at += *at == ',';
        signature->arguments[signature->count++] = read_type(&at);
    }
    ffi_status status = is_variadic
        ? ffi_prep_cif_var(&signature->cif, ABI, signature->fixed, signature->count, signature->result,
                           signature->arguments)
        : ffi_prep_cif(&signature->cif, ABI, signature->count, signature->result, signature->arguments);
    if (status != FFI_OK)
        stop("ffi_prep_cif refuses", text);
    if (signature->result != &ffi_type_void)
        signature->result_layout = layout_of(signature->result);
    for (unsigned k = 0; k < signature->count; k++)
        signature->argument_layouts[k] = layout_of(signature->arguments[k]);
    ffi_closure *made = ffi_closure_alloc(sizeof *made, &code);
    if (!made || ffi_prep_closure_loc(made, &signature->cif, closure, signature, code) != FFI_OK)
        stop("no closure", text);
    return (function *)code;
}

static void __attribute__((constructor)) read_signatures(int argc, char **argv)
{
    static char text[1 << 18];
    unsigned room = 1 << 16, types = 0;
    FILE *file = argc > 1 ? fopen(argv[1], "r") : 0;
    if (!file)
        stop("no file", "of signatures");
    struct entry *entries = calloc(room, sizeof *entries);
    signatures = calloc(room, sizeof *signatures);
    for (; chunk.count < room && fgets(text, sizeof text, file); chunk.count++) {
        entries[chunk.count] = (struct entry){ prepare(signatures + chunk.count, text), caller };
        types += signatures[chunk.count].count + 1;
    }
    fclose(file);
    const struct layout **layouts = calloc(types + 1, sizeof *layouts), **next = layouts;
    for (int k = 0; k < chunk.count; k++) {
        if (signatures[k].result != &ffi_type_void)
            *next++ = &signatures[k].result_layout;
        for (unsigned j = 0; j < signatures[k].count; j++)
            *next++ = &signatures[k].argument_layouts[j];
    }
    chunk.entries = entries;
    chunk.layouts = layouts;
}
