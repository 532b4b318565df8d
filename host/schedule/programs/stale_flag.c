/* A flag is tested, the mutex is given up for a while, and then it is waited by what was seen before. Mended: a look at
   the flag as it is. */
#include "programs.h"

static pthread_mutex_t lock = PTHREAD_MUTEX_INITIALIZER;
static pthread_cond_t changed = PTHREAD_COND_INITIALIZER;
static bool is_ready;

static void *await(void *unused)
{
    pthread_mutex_lock(&lock);
    bool was_ready = is_ready;
    pthread_mutex_unlock(&lock);
    pthread_mutex_lock(&lock);
    if (!MENDED && !was_ready)
        pthread_cond_wait(&changed, &lock);
    while (!is_ready)
        pthread_cond_wait(&changed, &lock);
    pthread_mutex_unlock(&lock);
    return unused;
}

static void *announce(void *unused)
{
    pthread_mutex_lock(&lock);
    is_ready = true;
    pthread_cond_signal(&changed);
    pthread_mutex_unlock(&lock);
    return unused;
}

int main(void)
{
    start_and_join((Body *[]){await, announce}, 2);
    return 0;
}
