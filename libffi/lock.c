#include "lock.h"
#include <stdio.h>
#include <stdlib.h>

pthread_mutex_t library_lock = PTHREAD_MUTEX_INITIALIZER;
pthread_mutex_t slots_lock = PTHREAD_MUTEX_INITIALIZER;

static void take_all(void)
{
    pthread_mutex_lock(&library_lock);
    pthread_mutex_lock(&slots_lock);
}

static void give_all(void)
{
    pthread_mutex_unlock(&slots_lock);
    pthread_mutex_unlock(&library_lock);
}

__attribute__((constructor)) static void keep_over_forks(void)
{
    if (pthread_atfork(take_all, give_all, give_all) != 0) {
        fputs("libffi: no memory to hold its locks over forks\n", stderr);
        abort();
    }
}
