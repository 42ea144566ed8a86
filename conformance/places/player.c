/* Plays the places that ffi3 prints, as a caller and as a callee of compiled code.
 *
 * Standard input has cases. Each plays one signature in one direction:
 *
 *   call I       the player loads registers and stack as told, calls compiled callee I, and looks at the result
 *   enter I      compiled caller I calls the player, which looks at registers and stack, and hands back a result
 *   frame N      bytes of the caller's frame
 *   values HEX   the bytes of the arguments' leaves, in order; `result HEX` those of the result
 *   begin        in an entry: now the compiled caller is called, and what follows is at the entry
 *   put P HEX         bytes at place P; a place is g7+0, f3+0 or s16+0: register or stack, number, byte
 *   put_address P N   the address of byte N of the frame
 *   put_copy P Q      the doubleword that was in place Q at the entry
 *   put_at P N HEX    bytes N on from the address that was in place P at the entry
 *   want P HEX, want_address P N, want_at P N HEX    the same, looked at
 *   want_aligned P A  the address in place P is a multiple of A
 *   want_between P L H   the lowest byte of place P is from L to H
 *   x87 N        the result is in so many x87 registers
 *   show         writes a line `shown BASE GENERAL FLOATING STACK`, in hexadecimal: registers, and the stack from BASE
 *   dump         writes a line with the same from the stack pointer on: in an entry `dumped I SP GENERAL FLOATING
 *                STACK`, to the end of the compiled caller's frame, and 512 bytes at least; in a call, where it has
 *                returned, `returned I SP GENERAL FLOATING STACK`, to the end of the player's frame
 *   go           in a call: now call; at an entry: what follows is the result
 *   end          ends a case
 *
 * All that no put names is random. First a line `layout C SIZE ALIGN AT:KIND ..` is written for each type of chunk C,
 * with each leaf's offset and its kind: u, s, f or p (player.h), and its bytes. For each case that was played a line
 * `passed I call|enter` or `failed I call|enter REASONS` is written as it ends.
 */
#include <setjmp.h>
#include <signal.h>
#include <stdarg.h>
#include <stddef.h>
#include <stdio.h>
#include <stdlib.h>
#include <string.h>

#include "player.h"

#define GUARD 256
#define LONGEST 300000
#define SHOWN 2048
#define DUMPED 512

#if defined WIN64
enum { STACK_POINTER = 4, LINK = 8, KEPT = 1 << 3 | 1 << 5 | 1 << 6 | 1 << 7 | 0xF000, RESERVED = 0,
       KEPT_FLOATING = 0xFFC0FFC0 };
#elif defined __x86_64__
enum { STACK_POINTER = 4, LINK = 8, KEPT = 1 << 3 | 1 << 5 | 0xF000, RESERVED = 0, KEPT_FLOATING = 0 };
#elif defined __aarch64__
enum { STACK_POINTER = 31, LINK = 0, KEPT = 0x3FF80000, RESERVED = 1 << 18 | 1 << 30, KEPT_FLOATING = 0xFF00 };
#else
enum { STACK_POINTER = 2, LINK = 0, KEPT = 0x0FFC0300, RESERVED = 1 << 0 | 1 << 1 | 1 << 3 | 1 << 4,
       KEPT_FLOATING = 0x0FFC0300 };
#endif

extern const struct chunk *chunks;
extern int chunk_count;

/* In the target's assembly. play_call calls with the registers of `now`, and leaves there those of the return.
   play_enter is what compiled code calls: it leaves the registers in `now`, calls entered, and returns with `now`. */
void play_call(function *callee, unsigned char *stack_pointer);
void play_enter(void);

long current;
struct image now;
static struct image before;
static unsigned char *base; /* the first stack argument, where the frame starts */
static unsigned char *top; /* of all that the compiled caller has on the stack */
static unsigned char area[1 << 19] __attribute__((aligned(16)));
static unsigned char guard[GUARD];
static unsigned char values[LONGEST], result[LONGEST];
static unsigned value_count, result_count, value_at, result_at, argument;
static char *line;
static char reasons[2000];
static sigjmp_buf out_of_case;
static uint64_t state = 88172645463325252u;

static uint64_t draw(void)
{
    state ^= state << 13;
    state ^= state >> 7;
    state ^= state << 17;
    return state * 0x2545F4914F6CDD1Du;
}

static void fill(void *bytes, size_t count)
{
    unsigned char *at = bytes;
    while (count--)
        *at++ = draw() >> 32;
}

static void wrong(const char *form, ...)
{
    size_t used = strlen(reasons);
    va_list rest;
    va_start(rest, form);
    if (used < sizeof reasons - 200) {
        strcpy(reasons + used, used ? "; " : "");
        used = strlen(reasons);
        vsnprintf(reasons + used, sizeof reasons - used, form, rest);
    }
    va_end(rest);
}

/* What compiled code hands in and asks for. */

static void put_leaves(void *value, const struct layout *layout, const unsigned char *bytes, unsigned *at)
{
    fill(value, layout->size);
    for (unsigned k = 0; k < layout->leaves; *at += layout->length[k++])
        memcpy((unsigned char *)value + layout->at[k], bytes + *at, layout->length[k]);
}

static int has_leaves(const void *value, const struct layout *layout, const unsigned char *bytes, unsigned *at)
{
    int good = 1;
    for (unsigned k = 0; k < layout->leaves; *at += layout->length[k++])
        good &= !memcmp((const unsigned char *)value + layout->at[k], bytes + *at, layout->length[k]);
    return good;
}

void HELPER argument_in(const void *value, const struct layout *layout)
{
    if (!has_leaves(value, layout, values, &value_at))
        wrong("the callee finds another argument %u", argument);
    argument++;
}

void HELPER argument_out(void *value, const struct layout *layout)
{
    put_leaves(value, layout, values, &value_at);
}

void HELPER result_in(const void *value, const struct layout *layout)
{
    if (!has_leaves(value, layout, result, &result_at))
        wrong("the caller finds another result");
}

void HELPER result_out(void *value, const struct layout *layout)
{
    put_leaves(value, layout, result, &result_at);
}

/* The lines of a case. */

static char *word(void)
{
    return strsep(&line, " \n");
}

static long number(void)
{
    return atol(word());
}

static unsigned digit(char of)
{
    return of >= 'a' ? of - 'a' + 10u : of - '0' + 0u;
}

static unsigned hex(unsigned char *bytes)
{
    char *text = word();
    unsigned count = 0;
    for (; text && text[0] && text[1]; text += 2)
        bytes[count++] = digit(text[0]) << 4 | digit(text[1]);
    return count;
}

static unsigned char *place(struct image *image)
{
    char kind = *line++;
    long which = strtol(line, &line, 10), byte = strtol(line, &line, 10);
    line += *line == ' ';
    if (kind == 's')
        return base + which + byte;
    if (kind == 'f' && which >= 32)
        return (unsigned char *)(image->further + which - 32) + byte;
    return (unsigned char *)((kind == 'g' ? image->general : image->floating) + which) + byte;
}

static uint64_t doubleword(const unsigned char *at)
{
    uint64_t found;
    memcpy(&found, at, 8);
    return found;
}

static void look(const char *name, const unsigned char *at)
{
    static unsigned char bytes[LONGEST];
    unsigned count = hex(bytes);
    if (memcmp(at, bytes, count))
        wrong("other bytes at %s", name);
}

static void write_hex(const void *bytes, size_t count)
{
    const char *digits = "0123456789abcdef";
    putchar(' ');
    for (const unsigned char *at = bytes; count--; at++) {
        putchar_unlocked(digits[*at >> 4]);
        putchar_unlocked(digits[*at & 15]);
    }
}

static void show(void)
{
    size_t in_area = base >= area && base < area + sizeof area ? area + sizeof area - base : SHOWN;
    printf("shown %lx", (unsigned long)base);
    write_hex(now.general, sizeof now.general);
    write_hex(now.floating, sizeof now.floating);
    write_hex(base, in_area < SHOWN ? in_area : SHOWN);
    printf("\n");
}

static void dump(void)
{
    int is_return = base >= area && base < area + sizeof area;
    const unsigned char *sp = is_return ? base : base - LINK;
    printf("%s %ld %lx", is_return ? "returned" : "dumped", current, (unsigned long)sp);
    write_hex(now.general, sizeof now.general);
    write_hex(now.floating, sizeof now.floating);
    write_hex(sp, is_return ? area + sizeof area - GUARD - sp : top - sp < DUMPED ? DUMPED : top - sp);
    printf("\n");
}

/* Does one line, whose first word is given. */
static void play(const char *what)
{
    char name[40];
    snprintf(name, sizeof name, "%s", line);
    name[strcspn(name, " \n")] = 0;
    if (!strcmp(what, "show")) {
        show();
    } else if (!strcmp(what, "dump")) {
        dump();
    } else if (!strcmp(what, "frame")) {
        base = area + sizeof area - GUARD - number();
        fill(base, area + sizeof area - base);
        memcpy(guard, area + sizeof area - GUARD, GUARD);
    } else if (!strcmp(what, "values")) {
        value_count = hex(values);
    } else if (!strcmp(what, "result")) {
        result_count = hex(result);
    } else if (!strcmp(what, "x87")) {
        now.x87_results = number();
    } else if (!strcmp(what, "put")) {
        hex(place(&now));
    } else if (!strcmp(what, "put_address")) {
        unsigned char *at = place(&now);
        uint64_t address = (uintptr_t)(base + number());
        memcpy(at, &address, 8);
    } else if (!strcmp(what, "put_copy")) {
        unsigned char *at = place(&now);
        memcpy(at, place(&before), 8);
    } else if (!strcmp(what, "put_at")) {
        uintptr_t start = doubleword(place(&before));
        start += number();
        hex((unsigned char *)start);
    } else if (!strcmp(what, "want")) {
        look(name, place(&now));
    } else if (!strcmp(what, "want_address")) {
        uint64_t found = doubleword(place(&now));
        if (found != (uintptr_t)(base + number()))
            wrong("another address at %s", name);
    } else if (!strcmp(what, "want_at")) {
        uintptr_t start = doubleword(place(&now));
        start += number();
        look(name, (unsigned char *)start);
    } else if (!strcmp(what, "want_aligned")) {
        uint64_t found = doubleword(place(&now));
        long aligned = number();
        if (found % aligned)
            wrong("the address at %s is no multiple of %ld", name, aligned);
    } else if (!strcmp(what, "want_between")) {
        int found = *place(&now), low = number(), high = number();
        if (found < low || found > high)
            wrong("%s is %d, not %d to %d", name, found, low, high);
    } else {
        fprintf(stderr, "player: no such line: %s\n", what);
        exit(2);
    }
}

/* Does the lines to the next `go` or `end`. */
static char *cursor;
static int ended;

static void play_to(const char *last)
{
    for (;;) {
        line = cursor;
        char *newline = strchr(cursor, '\n');
        *newline = 0;
        cursor = newline + 1;
        char *what = word();
        ended = !strcmp(what, "end");
        if (!strcmp(what, last))
            return;
        if (!line)
            line = "";
        play(what);
    }
}

/* Called in a compiled caller's call, on its stack. */
void entered(void)
{
    before = now;
    base = (unsigned char *)(uintptr_t)now.general[STACK_POINTER] + LINK;
    if ((uintptr_t)base % 16)
        wrong("the stack pointer is not a multiple of 16 at the call");
    play_to("go");
    for (int k = 0; k < 32; k++) {
        if (!(KEPT >> k & 1) && !(RESERVED >> k & 1) && k != STACK_POINTER)
            now.general[k] = draw();
        if (!(KEPT_FLOATING >> k & 1))
            now.floating[k] = draw();
    }
    fill(now.further, sizeof now.further);
    play_to("end");
}

static void call(function *callee)
{
    fill(&now, offsetof(struct image, x87_results));
    play_to("go");
    before = now;
    play_call(callee, base);
    for (int k = 0; k < 32; k++) {
        if (KEPT >> k & 1 && now.general[k] != before.general[k])
            wrong("general register %d is not preserved", k);
        if (KEPT_FLOATING >> k & 1 && now.floating[k] != before.floating[k])
            wrong("floating register %d is not preserved", k);
    }
    if (now.general[STACK_POINTER] != (uintptr_t)base)
        wrong("the stack pointer is not preserved");
    play_to("end");
    if (memcmp(guard, area + sizeof area - GUARD, GUARD))
        wrong("written above the frame");
}

static void run_case(int is_call, const struct entry *entry)
{
    ended = 0;
    now.x87_results = 0;
    value_at = result_at = argument = 0;
    reasons[0] = 0;
    int fault = sigsetjmp(out_of_case, 1);
    if (fault) {
        wrong("signal %d", fault);
        if (!ended)
            cursor = strstr(cursor, "end\n") + strlen("end\n");
    } else if (is_call) {
        call(entry->callee);
    } else {
        play_to("begin");
        top = __builtin_frame_address(0);
        entry->caller(play_enter);
    }
    if (!fault && (value_at != value_count || (is_call && result_at != result_count)))
        wrong("not all values were passed");
    printf("%s %ld %s %s\n", reasons[0] ? "failed" : "passed", current, is_call ? "call" : "enter", reasons);
}

static void caught(int signal)
{
    siglongjmp(out_of_case, signal);
}

static void write_layouts(void)
{
    for (int c = 0; c < chunk_count; c++)
        for (const struct layout *const *each = chunks[c].layouts; *each; each++) {
            printf("layout %d %u %u", c, (*each)->size, (*each)->align);
            for (unsigned k = 0; k < (*each)->leaves; k++)
                printf(" %u:%c%u", (*each)->at[k], (*each)->kind[k], (*each)->length[k]);
            printf("\n");
        }
}

int main(void)
{
    volatile unsigned char above[SHOWN] = { 0 }; /* so that the stack above each entry can be shown and dumped */
    static unsigned char signal_stack[1 << 16];
    stack_t stack = { .ss_sp = signal_stack, .ss_size = sizeof signal_stack };
    struct sigaction action = { .sa_handler = caught, .sa_flags = SA_ONSTACK | SA_NODEFER };
    sigaltstack(&stack, 0);
    int signals[] = { SIGSEGV, SIGBUS, SIGILL, SIGTRAP, SIGFPE, SIGABRT };
    for (unsigned k = 0; k < sizeof signals / sizeof *signals; k++)
        sigaction(signals[k], &action, 0);

    size_t size = 0, room = 1 << 20, got;
    char *input = malloc(room + 1);
    while ((got = fread(input + size, 1, room - size, stdin))) {
        size += got;
        if (size == room)
            input = realloc(input, (room *= 2) + 1);
    }
    input[size] = 0;
    setvbuf(stdout, 0, _IOLBF, 0);
    write_layouts();
    for (cursor = input; *cursor;) {
        char *newline = strchr(cursor, '\n');
        *newline = 0;
        line = cursor;
        cursor = newline + 1;
        int is_call = !strcmp(word(), "call");
        long rest = current = number();
        const struct chunk *chunk = chunks;
        while (rest >= chunk->count)
            rest -= chunk++->count;
        run_case(is_call, chunk->entries + rest);
    }
    return above[0];
}
