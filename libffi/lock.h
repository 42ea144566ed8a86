/* lock.h: the locks for what is made once. They are held over a fork, so that a child has them free. */
#ifndef LOCK_H
#define LOCK_H

#include <pthread.h>

extern pthread_mutex_t library_lock; /* of the proved library while it answers, and of what is kept of its answers */
extern pthread_mutex_t slots_lock;   /* of the memory of closures */

#endif
