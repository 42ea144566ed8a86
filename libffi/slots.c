/* The memory of closures. A block has pages of code, and behind them as many pages of data: slot k of the code leads to
 * the closure in slot k of the data. No page is both writable and executable. The code is a private mapping of this
 * library's own file, or, where that can't be had, private memory that is written before it becomes executable: what a
 * process writes there, a forked child included, no other one sees. Nothing of the library's own stands in the data. */
#define _GNU_SOURCE
#include "closure.h"
#include "host.h"
#include "lock.h"
#include <fcntl.h>
#include <stdint.h>
#include <stdio.h>
#include <stdlib.h>
#include <string.h>
#include <sys/mman.h>
#include <sys/stat.h>
#include <unistd.h>

#define SLOTS (BLOCK_BYTES / SLOT_BYTES)
#define WORDS (SLOTS / 64)

struct block {
    char *code;           /* the data is BLOCK_BYTES behind it */
    uint32_t free;        /* slots */
    bool is_open;         /* whether it is in the list of blocks that may have room */
    struct block *next;   /* in that list */
    uint64_t taken[WORDS];
    uint16_t sizes[SLOTS]; /* of the allocation that begins there, in slots; else 0 */
};

/* All under slots_lock. */
static struct block **blocks; /* by address */
static size_t blocks_count, blocks_room;
static struct block *open_blocks;

/* ---- Code */

/* Whether this file is the one that is mapped, by its number, and has the block's bytes: what is mapped behind a file's
 * end can't be read. In another root another file may have the library's name. */
static bool is_mapped_file(int file, unsigned long number, off_t at)
{
    struct stat found;
    return fstat(file, &found) == 0 && (unsigned long)found.st_ino == number && found.st_size - at >= BLOCK_BYTES;
}

/* Where in which file this library's slots_code stands, by the list of mappings that the kernel gives. The caller owns
 * the file; -1 where it isn't found. */
static int own_file(off_t *at)
{
    unsigned long first, end, offset, number, wanted = (unsigned long)slots_code;
    char line[4352], path[4097];
    int file = -1;
    FILE *maps = fopen("/proc/self/maps", "re");
    while (maps && file < 0 && fgets(line, sizeof line, maps))
        if (sscanf(line, "%lx-%lx %*4s %lx %*s %lu %4096[^\n]", &first, &end, &offset, &number, path) == 5 &&
            first <= wanted && wanted < end) {
            *at = (off_t)(offset + (wanted - first));
            file = open(path, O_RDONLY | O_CLOEXEC);
            if (file >= 0 && !is_mapped_file(file, number, *at)) {
                close(file);
                file = -1;
            }
            break;
        }
    if (maps)
        fclose(maps);
    return file;
}

/* Maps the pages of the file over the block's start. A file that was replaced since has other bytes there. */
static bool has_code_of_file(char *block)
{
    off_t at;
    int file = own_file(&at);
    if (file < 0)
        return false;
    void *code = mmap(block, BLOCK_BYTES, PROT_READ | PROT_EXEC, MAP_PRIVATE | MAP_FIXED, file, at);
    close(file);
    return code != MAP_FAILED && memcmp(code, slots_code, BLOCK_BYTES) == 0;
}

static bool has_code_of_its_own(char *block)
{
    void *code = mmap(block, BLOCK_BYTES, PROT_READ | PROT_WRITE, MAP_PRIVATE | MAP_ANONYMOUS | MAP_FIXED, -1, 0);
    if (code == MAP_FAILED)
        return false;
    memcpy(code, slots_code, BLOCK_BYTES);
    __builtin___clear_cache(block, block + BLOCK_BYTES);
    return mprotect(code, BLOCK_BYTES, PROT_READ | PROT_EXEC) == 0;
}

/* ---- Blocks */

static bool has_room_for_block(void)
{
    if (blocks_count < blocks_room)
        return true;
    size_t room = blocks_room ? 2 * blocks_room : 16;
    struct block **larger = realloc(blocks, room * sizeof(struct block *));
    if (!larger)
        return false;
    blocks = larger;
    blocks_room = room;
    return true;
}

static void open_block(struct block *block)
{
    if (block->is_open)
        return;
    block->is_open = true;
    block->next = open_blocks;
    open_blocks = block;
}

/* A thread that is cancelled while it maps a block would keep the lock. */
static char *mapped_block(void)
{
    int state = PTHREAD_CANCEL_ENABLE;
    pthread_setcancelstate(PTHREAD_CANCEL_DISABLE, &state);
    char *at = mmap(NULL, 2 * BLOCK_BYTES, PROT_READ | PROT_WRITE, MAP_PRIVATE | MAP_ANONYMOUS, -1, 0);
    if (at == MAP_FAILED)
        at = NULL;
    if (at && !has_code_of_file(at) && !has_code_of_its_own(at)) {
        munmap(at, 2 * BLOCK_BYTES);
        at = NULL;
    }
    pthread_setcancelstate(state, NULL);
    return at;
}

static struct block *new_block(void)
{
    struct block *block = has_room_for_block() ? calloc(1, sizeof *block) : NULL;
    char *at = block ? mapped_block() : NULL;
    if (!at) {
        free(block);
        return NULL;
    }
    block->code = at;
    block->free = SLOTS;
    size_t k = blocks_count++;
    for (; k > 0 && (uintptr_t)blocks[k - 1]->code > (uintptr_t)at; k--)
        blocks[k] = blocks[k - 1];
    blocks[k] = block;
    open_block(block);
    return block;
}

/* A run of free slots, the first from a word with a free one on; or SLOTS. */
static uint32_t free_run(const struct block *block, uint32_t wanted)
{
    if (wanted == 1) {
        for (uint32_t word = 0; word < WORDS; word++)
            if (~block->taken[word])
                return word * 64 + (uint32_t)__builtin_ctzll(~block->taken[word]);
        return SLOTS;
    }
    uint32_t run = 0;
    for (uint32_t slot = 0; slot < SLOTS; slot++) {
        run = block->taken[slot / 64] >> slot % 64 & 1 ? 0 : run + 1;
        if (run == wanted)
            return slot + 1 - wanted;
    }
    return SLOTS;
}

static void mark(struct block *block, uint32_t slot, uint32_t count, bool is_taken)
{
    for (uint32_t k = slot; k < slot + count; k++)
        if (is_taken)
            block->taken[k / 64] |= UINT64_C(1) << k % 64;
        else
            block->taken[k / 64] &= ~(UINT64_C(1) << k % 64);
    block->free = is_taken ? block->free - count : block->free + count;
    block->sizes[slot] = (uint16_t)(is_taken ? count : 0);
}

/* Under the lock: so many slots one behind another, and where their code is. */
static char *take_slots(uint32_t count, void **code)
{
    struct block *block;
    uint32_t slot = SLOTS;
    while (open_blocks && open_blocks->free == 0) {
        open_blocks->is_open = false;
        open_blocks = open_blocks->next;
    }
    for (block = open_blocks; block; block = block->next)
        if (block->free >= count && (slot = free_run(block, count)) < SLOTS)
            break;
    if (!block && !(block = new_block()))
        return NULL;
    if (slot == SLOTS)
        slot = 0;
    mark(block, slot, count, true);
    *code = block->code + slot * SLOT_BYTES;
    return block->code + BLOCK_BYTES + slot * SLOT_BYTES;
}

/* Under the lock: the block in whose data an address is, or NULL. */
static struct block *block_of(const void *closure)
{
    size_t first = 0, end = blocks_count;
    while (first < end) {
        size_t middle = (first + end) / 2;
        uintptr_t data = (uintptr_t)blocks[middle]->code + BLOCK_BYTES;
        if ((uintptr_t)closure < data)
            end = middle;
        else if ((uintptr_t)closure >= data + BLOCK_BYTES)
            first = middle + 1;
        else
            return blocks[middle];
    }
    return NULL;
}

void *ffi_closure_alloc(size_t size, void **code)
{
    if (!code || size > BLOCK_BYTES)
        return NULL;
    uint32_t count = size ? (uint32_t)((size + SLOT_BYTES - 1) / SLOT_BYTES) : 1;
    pthread_mutex_lock(&slots_lock);
    char *closure = take_slots(count, code);
    pthread_mutex_unlock(&slots_lock);
    return closure;
}

void ffi_closure_free(void *closure)
{
    if (!closure)
        return;
    pthread_mutex_lock(&slots_lock);
    struct block *block = block_of(closure);
    size_t offset = block ? (uintptr_t)closure - (uintptr_t)block->code - BLOCK_BYTES : 1;
    uint32_t slot = (uint32_t)(offset / SLOT_BYTES);
    if (offset % SLOT_BYTES || !block->sizes[slot]) {
        fputs("libffi: ffi_closure_free of what ffi_closure_alloc did not give, or twice\n", stderr);
        abort();
    }
    mark(block, slot, block->sizes[slot], false);
    open_block(block);
    pthread_mutex_unlock(&slots_lock);
}
