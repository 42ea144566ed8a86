/* What the proved library asks of a heap, over malloc: whether memory was found, and where. In the library for x86-64
 * the kit's own C stands in this place. */
#include <stdlib.h>

struct block {
    size_t found; /* 1 where there is memory, else 0 */
    void *at;     /* the memory, which is the caller's until rattle_dealloc has it; never NULL */
};

void rattle_dealloc(void *at);
struct block rattle_alloc(size_t size, size_t least);
struct block rattle_realloc(void *at, size_t from, size_t to, size_t least);

static char nothing;

static struct block block_at(void *at)
{
    return at ? (struct block){1, at} : (struct block){0, &nothing};
}

/* A block of 0 bytes takes `least`, so that malloc answers NULL only where it refuses. */
struct block rattle_alloc(size_t size, size_t least)
{
    return block_at(malloc(size ? size : least));
}

struct block rattle_realloc(void *at, size_t from, size_t to, size_t least)
{
    (void)from;
    return block_at(realloc(at, to ? to : least));
}

void rattle_dealloc(void *at)
{
    free(at);
}
