/* Who waits for a flag looks at it once: a wake-up that nobody caused lets it go on too early. Mended: it looks again. */
#include <assert.h>

#include "programs.h"

static pthread_mutex_t lock = PTHREAD_MUTEX_INITIALIZER;
static pthread_cond_t changed = PTHREAD_COND_INITIALIZER;
static bool is_ready;

static void *await(void *unused)
{
    pthread_mutex_lock(&lock);
    if (!is_ready)
        pthread_cond_wait(&changed, &lock);
    while (MENDED && !is_ready)
        pthread_cond_wait(&changed, &lock);
    assert(is_ready);
    pthread_mutex_unlock(&lock);
    return unused;
}

static void *announce(void *unused)
{
    pthread_mutex_lock(&lock);
    is_ready = true;
    pthread_cond_signal(&changed);
    pthread_mutex_unlock(&lock);
    return unused;
}

int main(void)
{
    start_and_join((Body *[]){await, announce}, 2);
    return 0;
}
