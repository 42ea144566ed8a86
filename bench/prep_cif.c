/* Times libffi's ffi_prep_cif: prep_cif FILE, with one signature a line. Writes the nanoseconds of processor time for all of
   them, the best of a few rounds. */
#include "prepared.h"

#include <time.h>

#define ROUNDS 5 /* as in bench/side_by_side */

/* Tells the offsets of a struct's elements, and of those of the structs in it. */
static void tell_offsets(ffi_type *type)
{
    static size_t offsets[MOST_LEAVES];
    if (type->type != FFI_TYPE_STRUCT)
        return;
    if (ffi_get_struct_offsets(FFI_DEFAULT_ABI, type, offsets) != FFI_OK)
        stop("ffi_get_struct_offsets", "refused");
    for (ffi_type **each = type->elements; *each; each++)
        tell_offsets(*each);
}

/* Both are counted by their names in bench/side_by_side. */
__attribute__((noinline, noclone)) void prepare_all(void)
{
    for (int k = 0; k < chunk.count; k++) {
        struct signature *each = signatures + k;
        ffi_status status = each->fixed
            ? ffi_prep_cif_var(&each->cif, FFI_DEFAULT_ABI, each->fixed, each->count, each->result, each->arguments)
            : ffi_prep_cif(&each->cif, FFI_DEFAULT_ABI, each->count, each->result, each->arguments);
        if (status != FFI_OK)
            stop("ffi_prep_cif", "refused");
    }
}

__attribute__((noinline, noclone)) void tell_all_offsets(void)
{
    for (int k = 0; k < chunk.count; k++) {
        tell_offsets(signatures[k].result);
        for (unsigned j = 0; j < signatures[k].count; j++)
            tell_offsets(signatures[k].arguments[j]);
    }
}

static double now(void)
{
    struct timespec time;
    clock_gettime(CLOCK_PROCESS_CPUTIME_ID, &time);
    return time.tv_sec * 1e9 + time.tv_nsec;
}

int main(void)
{
    double best = 0;
    for (int round = 0; round < ROUNDS; round++) {
        for (int k = 0; k < chunk.count; k++) {
            forget(signatures[k].result);
            for (unsigned j = 0; j < signatures[k].count; j++)
                forget(signatures[k].arguments[j]);
        }
        double start = now();
        prepare_all();
        double taken = now() - start;
        if (!round || taken < best)
            best = taken;
        tell_all_offsets();
    }
    printf("%.0f\n", best);
    return 0;
}
