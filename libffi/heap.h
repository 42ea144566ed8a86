/* heap.h: the memory that the proved library takes while it answers, and that of what is kept of its answers. */
#ifndef HEAP_H
#define HEAP_H

#include <stdbool.h>
#include <stddef.h>
#include <stdint.h>

/* Between these the library may be asked, and what it told be kept, by one thread at a time. */
void library_enter(void);
void library_leave(void);

/* Whether the library still has what it took for the answer of this number. If not, all that it took is free again, but
 * for what malloc gave, and its next answer has another number. */
bool library_goes_on(uint64_t answer);

/* The number of its answer, or 0, where malloc gave any memory for it, so that what the library keeps of it has to be
 * given back. */
uint64_t library_answer(void);

/* Memory that stays for as long as the process, one piece behind another. */
void *kept_room(size_t most); /* the next piece, with room for `most` bytes, aligned to 8; or NULL */
void kept_take(size_t bytes); /* how many of them it has */

#endif
