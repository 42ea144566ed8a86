/* Where the bytes of two structs go on RISC-V and on Windows: cc example.c $(pkg-config --cflags --libs ffi3) */
#include <ffi3.h>
#include <stdio.h>
#include <string.h>

static void show(uint32_t target, const char *name, const char *text)
{
    struct ffi3_call call;
    struct ffi3_piece pieces[64];
    if (ffi3_place(target, text, strlen(text), &call, pieces, 64) != FFI3_OK) {
        char why[64] = "";
        ffi3_fault_text(&call.fault, why, sizeof why);
        printf("%s\n", why);
        return;
    }
    printf("%s, frame of %zu bytes\n", name, call.frame);
    for (const struct ffi3_piece *p = pieces; p < pieces + call.pieces; p++) {
        char place[16];
        if (p->place == FFI3_STACK)
            snprintf(place, sizeof place, "stack+%u", p->number);
        else
            ffi3_register_name(target, p->place, p->number, place, sizeof place);
        if (p->part == FFI3_RESULT)
            printf("  result:     %s", place);
        else
            printf("  argument %u: %s", p->part, place);
        if (p->holds == FFI3_ADDRESS)
            printf(" has the address of frame+%u\n", p->offset);
        else
            printf(" has bytes %u to %u\n", p->offset, p->offset + p->length - 1);
    }
}

int main(void)
{
    const char *text = "double f(struct { double x; int i; } a, struct { char *name; long at[2]; } b)";
    show(FFI3_RISCV, "riscv", text);
    show(FFI3_WIN64, "win64", text);
    return 0;
}
