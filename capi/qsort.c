/* Calls the C library's qsort by a prepared interface, with a comparison that is called back by another. On AMD64, and
 * with qsort_aarch64.s on AArch64: cc -std=c11 qsort.c qsort_amd64.s $(pkg-config --cflags --libs ffi3) && ./a.out
 */
#include <stdio.h>
#include <stdlib.h>

#include "ffi3.h"

/* In qsort_amd64.s: the machine's standard; a call with these registers, which then has those of the return; and a
 * comparison for qsort, which calls compare_entered and returns with the registers that this leaves. */
extern const uint32_t host_target;
void call_with(void (*function)(void), struct ffi3_registers *registers);
void compare_by_stub(void);
void compare_entered(struct ffi3_registers *registers, const unsigned char *stack);

/* void qsort(void *, size_t, size_t, int (*)(const void *, const void *)), and the comparison */
static const struct ffi3_node of_sort[] = {
    {FFI3_VOID, 0}, {FFI3_POINTER, 0}, {FFI3_UINT64, 0}, {FFI3_UINT64, 0}, {FFI3_POINTER, 0}};
static const struct ffi3_node of_compare[] = {{FFI3_SINT32, 0}, {FFI3_POINTER, 0}, {FFI3_POINTER, 0}};
static struct ffi3_interface sort = FFI3_NO_INTERFACE, compare = FFI3_NO_INTERFACE;

static void must(uint32_t status)
{
    if (status != FFI3_OK) {
        fprintf(stderr, "ffi3 answers %u\n", (unsigned)status);
        exit(1);
    }
}

void compare_entered(struct ffi3_registers *registers, const unsigned char *stack)
{
    unsigned char entry[8]; /* AMD64's return address: neither the arguments nor the result stand on the stack */
    struct ffi3_reason reason;
    const int *values[2];
    must(ffi3_collect(&compare, registers, stack, sizeof entry, (unsigned char *)values, sizeof values, &reason));
    int order = (*values[0] > *values[1]) - (*values[0] < *values[1]);
    must(ffi3_give(&compare, (unsigned char *)&order, sizeof order, registers, entry, sizeof entry, &reason));
}

int main(void)
{
    int numbers[] = {5, 3, 8, 1, 2};
    struct {
        int *base;
        size_t count, size;
        void (*compare)(void);
    } values = {numbers, 5, sizeof *numbers, compare_by_stub};
    struct ffi3_registers registers = {0};
    struct ffi3_fault fault;
    unsigned char entry[8];
    must(ffi3_prepare(host_target, of_sort, 5, FFI3_NOT_VARIADIC, &sort, &fault));
    must(ffi3_prepare(host_target, of_compare, 3, FFI3_NOT_VARIADIC, &compare, &fault));
    must(ffi3_store(&sort, (unsigned char *)&values, sizeof values, &registers, entry, sizeof entry));
    call_with((void (*)(void))qsort, &registers);
    for (size_t i = 0; i < values.count; i++)
        printf("%d%c", numbers[i], i + 1 < values.count ? ' ' : '\n');
    ffi3_release(&sort);
    ffi3_release(&compare);
    return 0;
}
