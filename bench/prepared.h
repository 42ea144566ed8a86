/* What the timers of libffi's ffi_prep_cif share: the signatures of a file as conformance has libffi read them, of which
   nothing is played, and a struct's size taken away. */
#define ABI FFI_DEFAULT_ABI
#include "../conformance/places/libffi.c"

long current;

void argument_in(const void *value, const struct layout *layout) { (void)value, (void)layout; }
void argument_out(void *value, const struct layout *layout) { (void)value, (void)layout; }
void result_in(const void *value, const struct layout *layout) { (void)value, (void)layout; }
void result_out(void *value, const struct layout *layout) { (void)value, (void)layout; }

/* Takes a struct's size away, so that ffi_prep_cif lays it out anew. */
static void forget(ffi_type *type)
{
    if (type->type != FFI_TYPE_STRUCT)
        return;
    type->size = type->alignment = 0;
    for (ffi_type **each = type->elements; *each; each++)
        forget(*each);
}
