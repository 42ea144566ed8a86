/* The memory of the proved library while it answers: libffi/build has it call the three functions here in place of
 * those over malloc that it comes with. All that it takes for an answer is of no use after it. So one piece of memory
 * is given out from its front, and is free again when the library is asked next; malloc serves where it is full. */
#include "heap.h"
#include "lock.h"
#include <stdlib.h>
#include <string.h>

#define ANSWER_BYTES 16384

/* All under library_lock. */
static _Alignas(16) char bytes[ANSWER_BYTES];
static size_t used;
static bool is_full;    /* malloc has served */
static uint64_t answer; /* the number of the last answer */

void library_enter(void) { pthread_mutex_lock(&library_lock); }
void library_leave(void) { pthread_mutex_unlock(&library_lock); }

bool library_goes_on(uint64_t number)
{
    if (number && number == library_answer())
        return true;
    used = 0;
    is_full = false;
    answer++;
    return false;
}

uint64_t library_answer(void) { return is_full ? 0 : answer; }

/* What the library asks of a heap. */
struct block {
    size_t found; /* 1 where there is memory, else 0 */
    void *at;     /* the memory, which is the library's until rattle_dealloc has it; never NULL */
};

void rattle_dealloc(void *at);
struct block rattle_alloc(size_t size, size_t least);
struct block rattle_realloc(void *at, size_t kept, size_t to, size_t least);

static struct block block_at(void *at)
{
    static char nothing;
    return at ? (struct block){1, at} : (struct block){0, &nothing};
}

static inline bool is_own(const void *at) { return (uintptr_t)at - (uintptr_t)bytes < sizeof bytes; }

static inline size_t rounded(size_t size) { return (size + 15) & ~(size_t)15; }

/* What is left is a multiple of 16. */
static inline bool has_room(size_t size) { return size <= sizeof bytes - used; }

static inline struct block taken(size_t size)
{
    struct block block = {1, bytes + used};
    used += rounded(size);
    return block;
}

/* A block of 0 bytes takes `least`. */
__attribute__((noinline)) static struct block least_or_malloced(size_t size, size_t least)
{
    if (size == 0 && has_room(least))
        return taken(least);
    is_full = true;
    return block_at(malloc(size ? size : least));
}

struct block rattle_alloc(size_t size, size_t least)
{
    return __builtin_expect(size && has_room(size), 1) ? taken(size) : least_or_malloced(size, least);
}

/* The first `kept` bytes stay as they are. The block that was given out last is made longer where it stands. */
struct block rattle_realloc(void *at, size_t kept, size_t to, size_t least)
{
    if (!is_own(at))
        return block_at(realloc(at, to ? to : least));
    if (to <= rounded(kept))
        return (struct block){1, at};
    size_t more = to - rounded(kept);
    if (kept && (char *)at + rounded(kept) == bytes + used && has_room(more)) {
        used += rounded(more);
        return (struct block){1, at};
    }
    struct block larger = rattle_alloc(to, least);
    if (larger.found)
        memcpy(larger.at, at, kept);
    return larger;
}

void rattle_dealloc(void *at)
{
    if (!is_own(at))
        free(at);
}

/* ---- What is kept. The first piece of a chunk stands at its start: whoever looks for lost memory finds each chunk. */

#ifdef __SANITIZE_ADDRESS__
#define CHUNK_BYTES 0 /* each piece has memory of its own, behind which nothing may be written */
#else
#define CHUNK_BYTES 16384
#endif

static char *next_piece, *chunk_end; /* of the last one all is free from `next_piece` on */

static inline size_t in_words(size_t size) { return (size + 7) & ~(size_t)7; }

void *kept_room(size_t most)
{
    if (__builtin_expect(most <= (size_t)(chunk_end - next_piece), 1))
        return next_piece;
    size_t size = most > CHUNK_BYTES ? in_words(most) : CHUNK_BYTES;
    char *next = malloc(size);
    if (!next)
        return NULL;
    next_piece = next;
    chunk_end = next + size;
    return next_piece;
}

void kept_take(size_t size) { next_piece += in_words(size); }
