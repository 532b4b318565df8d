/* A timed wait that is over is taken for a signal. Mended: the flag is asked. It needs a time that passes early. */
#include <assert.h>
#include <errno.h>
#include <time.h>

#include "programs.h"

static pthread_mutex_t lock = PTHREAD_MUTEX_INITIALIZER;
static pthread_cond_t changed = PTHREAD_COND_INITIALIZER;
static bool is_ready, was_late;

static void *await(void *unused)
{
    struct timespec deadline;

    clock_gettime(CLOCK_REALTIME, &deadline);
    deadline.tv_sec++;
    pthread_mutex_lock(&lock);
    int answer = 0;
    while (!is_ready && answer == 0)
        answer = pthread_cond_timedwait(&changed, &lock, &deadline);
    was_late = MENDED && answer == ETIMEDOUT && !is_ready;
    assert(is_ready || was_late);
    pthread_mutex_unlock(&lock);
    return unused;
}

static void *announce(void *unused)
{
    pthread_mutex_lock(&lock);
    is_ready = true;
    pthread_cond_signal(&changed);
    pthread_mutex_unlock(&lock);
    return unused;
}

int main(void)
{
    start_and_join((Body *[]){await, announce}, 2);
    return 0;
}
