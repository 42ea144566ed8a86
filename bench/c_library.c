/* Times ffi3_place beside libffi's ffi_prep_cif: c_library FILE DECLARATIONS, with the same functions in both: one signature a
   line, and one declaration a line. Writes the nanoseconds that each takes for all of them, the best of a few rounds. */
#include "prepared.h"

#include <ffi3.h>
#include <time.h>

#define ROUNDS 9
#define LONGEST (1 << 16)

static double now(void)
{
    struct timespec time;
    clock_gettime(CLOCK_MONOTONIC, &time);
    return time.tv_sec * 1e9 + time.tv_nsec;
}

static double time_of_libffi(void)
{
    for (int k = 0; k < chunk.count; k++) {
        forget(signatures[k].result);
        for (unsigned j = 0; j < signatures[k].count; j++)
            forget(signatures[k].arguments[j]);
    }
    double start = now();
    for (int k = 0; k < chunk.count; k++) {
        struct signature *each = signatures + k;
        if (ffi_prep_cif(&each->cif, FFI_DEFAULT_ABI, each->count, each->result, each->arguments) != FFI_OK)
            stop("not prepared", "");
    }
    return now() - start;
}

static double time_of_ffi3(char **lines, const size_t *lengths)
{
    double start = now();
    for (int k = 0; k < chunk.count; k++) {
        struct ffi3_call call;
        struct ffi3_piece pieces[256];
        if (ffi3_place(FFI3_AMD64, lines[k], lengths[k], &call, pieces, 256) != FFI3_OK)
            stop("not placed", lines[k]);
    }
    return now() - start;
}

int main(int count, char **words)
{
    static char line[LONGEST];
    char **lines = calloc(chunk.count, sizeof *lines);
    size_t *lengths = calloc(chunk.count, sizeof *lengths);
    FILE *file = count == 3 ? fopen(words[2], "r") : NULL;
    double libffi = 0, ffi3 = 0;
    if (!file)
        stop("no declarations", "");
    for (int k = 0; k < chunk.count && fgets(line, sizeof line, file); k++) {
        lengths[k] = strcspn(line, "\n");
        lines[k] = strdup(line);
    }
    for (int round = 0; round < ROUNDS; round++) {
        double first = time_of_libffi(), second = time_of_ffi3(lines, lengths);
        if (!round || first < libffi)
            libffi = first;
        if (!round || second < ffi3)
            ffi3 = second;
    }
    printf("%.0f %.0f\n", libffi, ffi3);
    return 0;
}
