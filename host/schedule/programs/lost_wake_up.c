/* A flag is set and signalled without the mutex, so that both may come between the test and the wait. Mended: with
   it. */
#include <stdatomic.h>

#include "programs.h"

static pthread_mutex_t lock = PTHREAD_MUTEX_INITIALIZER;
static pthread_cond_t changed = PTHREAD_COND_INITIALIZER;
static atomic_bool is_ready;

static void *await(void *unused)
{
    pthread_mutex_lock(&lock);
    while (!is_ready)
        pthread_cond_wait(&changed, &lock);
    pthread_mutex_unlock(&lock);
    return unused;
}

static void *announce(void *unused)
{
    if (MENDED)
        pthread_mutex_lock(&lock);
    is_ready = true;
    pthread_cond_signal(&changed);
    if (MENDED)
        pthread_mutex_unlock(&lock);
    return unused;
}

int main(void)
{
    start_and_join((Body *[]){await, announce}, 2);
    return 0;
}
