/* See host.h. A program is called as `program TARGET CONVENTION [trace]`: the target says which needs count against its
   stack, the convention is one of libffi's. */
#include "host.h"

#include <pthread.h>

#define SLOTS 256
#define FIRST_SLOT 0x10000
#define SLOT_SIZE 64
#define MOVES 10000
#define STACK 1048576
#define TARGETS 5
#define HOST_STACK (1UL << 30) /* of the thread that runs main: calls nest as deep as there are moves */

/* A closure of libffi. It is never given back to malloc: a closure that frees itself is still to return. */
struct made {
    const struct function *function;
    address at, user;
    ffi_closure *closure;
    void *code;
};

static const char *const targets[TARGETS] = {"amd64", "aapcs64", "riscv", "win64", "apple"};
static const struct {
    const char *name;
    ffi_abi abi;
} conventions[] = {{"unix64", FFI_UNIX64}, {"win64", FFI_WIN64}, {"gnuw64", FFI_GNUW64}};
ffi_abi convention;
static int target, is_traced;
static long moves, left = STACK;
static struct made *slots[SLOTS];

static void stop(void)
{
    fflush(stdout);
    exit(6);
}

void tick(void)
{
    if (moves++ == MOVES) {
        puts("stop: move limit");
        stop();
    }
}

static struct made **find(address at)
{
    address slot = (at - FIRST_SLOT) / SLOT_SIZE;
    if (at < FIRST_SLOT || at % SLOT_SIZE || slot >= SLOTS || !slots[slot]) {
        printf("stop: no closure at 0x%lx\n", at);
        stop();
    }
    return slots + slot;
}

/* What every closure does: user data of libffi's closure is the closure. */
static void enter(ffi_cif *cif, void *result, void **arguments, void *data)
{
    const struct made *made = data;
    const struct signature *signature = made->function->signature;
    (void)cif;
    if (is_traced) {
        printf("enter 0x%lx (", made->at);
        signature->write_arguments(arguments);
        puts(")");
    }
    made->function->act(result, arguments, made->user);
    if (is_traced) {
        printf("leave ");
        signature->write_result(result);
        putchar('\n');
    }
}

address make(const struct function *function, address user)
{
    int slot = 0;
    while (slot < SLOTS && slots[slot])
        slot++;
    if (slot == SLOTS) {
        puts("stop: closure table full");
        stop();
    }
    struct made *made = malloc(sizeof *made);
    made->function = function;
    made->at = FIRST_SLOT + SLOT_SIZE * slot;
    made->user = user;
    made->closure = ffi_closure_alloc(sizeof *made->closure, &made->code);
    if (ffi_prep_closure_loc(made->closure, &function->signature->cif, enter, made, made->code) != FFI_OK)
        abort();
    slots[slot] = made;
    return made->at;
}

void free_closure(address at)
{
    struct made **slot = find(at);
    ffi_closure_free((*slot)->closure);
    *slot = 0;
}

void call(struct signature *as, address at, void *result, void **values)
{
    const struct made *made = *find(at);
    const struct signature *is = made->function->signature;
    long need = as->need[target];
    if (strcmp(as->text, is->text)) {
        printf("stop: wrong signature at 0x%lx: called as %s, is %s\n", at, as->text, is->text);
        stop();
    }
    if (need > left) {
        printf("stop: stack full: need %ld, left %ld\n", need, left);
        stop();
    }
    left -= need;
    ffi_call(&as->cif, FFI_FN(made->code), result, values);
    left += need;
}

void bytes_of(void *to, const char *text)
{
    for (unsigned char *at = to; *text; text += 2)
        sscanf(text, "%2hhx", at++);
}

float float_of(const char *text)
{
    float value;
    bytes_of(&value, text);
    return value;
}

double double_of(const char *text)
{
    double value;
    bytes_of(&value, text);
    return value;
}

void write_wide(unsigned __int128 value, int is_signed)
{
    char digits[40], *at = digits + sizeof digits;
    int is_negative = is_signed && value >> 127;
    if (is_negative)
        value = -value;
    for (*--at = 0; value || !*at; value /= 10)
        *--at = '0' + value % 10;
    printf("%s%s", is_negative ? "-" : "", at);
}

void write_bytes(const void *from, int count)
{
    for (const unsigned char *at = from; count--;)
        printf("%02x", *at++);
}

/* The natives of docs/RULES.md, section 15. */

static void write_pointer_and_long(void **arguments)
{
    printf("0x%lx,%ld", *(address *)arguments[0], *(long *)arguments[1]);
}

static void write_three_longs(void **arguments)
{
    printf("%ld,%ld,%ld", *(long *)arguments[0], *(long *)arguments[1], *(long *)arguments[2]);
}

static void write_long(void *result)
{
    printf("%ld", *(long *)result);
}

static struct signature of_one = {
    .text = "sint64(sint64)",
    .need = {80, 192, 224, 208, 192},
    .write_result = write_long,
};
static struct signature of_pointer = {
    .text = "sint64(pointer,sint64)",
    .need = {80, 192, 224, 208, 192},
    .write_arguments = write_pointer_and_long,
    .write_result = write_long,
};
static struct signature of_three = {
    .text = "sint64(sint64,sint64,sint64)",
    .need = {96, 208, 240, 224, 208},
    .write_arguments = write_three_longs,
    .write_result = write_long,
};

static long call_of_one(address at, long value)
{
    long got;
    void *values[] = {&value};
    tick();
    call(&of_one, at, &got, values);
    return got;
}

static void act_apply(void *result, void **arguments, address user)
{
    (void)user;
    long got = call_of_one(*(address *)arguments[0], *(long *)arguments[1]);
    tick();
    *(long *)result = got;
}

static void act_twice(void *result, void **arguments, address user)
{
    (void)user;
    long once = call_of_one(*(address *)arguments[0], *(long *)arguments[1]);
    long got = call_of_one(*(address *)arguments[0], once);
    tick();
    *(long *)result = got;
}

static void act_sum3(void *result, void **arguments, address user)
{
    (void)user;
    tick();
    unsigned long sum = 0;
    for (int i = 0; i < 3; i++)
        sum += *(unsigned long *)arguments[i];
    *(unsigned long *)result = sum;
}

const struct function apply = {&of_pointer, act_apply};
const struct function twice = {&of_pointer, act_twice};
const struct function sum3 = {&of_three, act_sum3};

static void prepare_natives(void)
{
    static ffi_type *longs[] = {&ffi_type_sint64, &ffi_type_sint64, &ffi_type_sint64};
    static ffi_type *pointer_and_long[] = {&ffi_type_pointer, &ffi_type_sint64};
    if (ffi_prep_cif(&of_one.cif, convention, 1, &ffi_type_sint64, longs) != FFI_OK
        || ffi_prep_cif(&of_pointer.cif, convention, 2, &ffi_type_sint64, pointer_and_long) != FFI_OK
        || ffi_prep_cif(&of_three.cif, convention, 3, &ffi_type_sint64, longs) != FFI_OK)
        abort();
}

static void *run(void *none)
{
    main_body(0, 0, 0);
    return none;
}

int main(int count, char **words)
{
    pthread_attr_t attributes;
    pthread_t thread;
    if (count < 3)
        abort();
    while (target < TARGETS && strcmp(words[1], targets[target]))
        target++;
    for (unsigned k = 0; k < sizeof conventions / sizeof *conventions; k++)
        if (!strcmp(words[2], conventions[k].name))
            convention = conventions[k].abi;
    if (target == TARGETS || !convention)
        abort();
    is_traced = count > 3;
    prepare_natives();
    prepare();
    if (pthread_attr_init(&attributes) || pthread_attr_setstacksize(&attributes, HOST_STACK)
        || pthread_create(&thread, &attributes, run, 0) || pthread_join(thread, 0))
        abort();
    return 0;
}
