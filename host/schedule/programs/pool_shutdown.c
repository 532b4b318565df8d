/* A pool of two workers is told to stop without its mutex: a worker that is on its way to wait isn't woken. Mended:
   with the mutex. */
#include <stdatomic.h>

#include "programs.h"

static pthread_mutex_t lock = PTHREAD_MUTEX_INITIALIZER;
static pthread_cond_t changed = PTHREAD_COND_INITIALIZER;
static atomic_bool is_over;
static int jobs = 1, done;

static void *work(void *unused)
{
    pthread_mutex_lock(&lock);
    while (!is_over || jobs > 0) {
        if (jobs == 0) {
            pthread_cond_wait(&changed, &lock);
        } else {
            jobs--;
            done++;
        }
    }
    pthread_mutex_unlock(&lock);
    return unused;
}

static void *stop(void *unused)
{
    if (MENDED)
        pthread_mutex_lock(&lock);
    is_over = true;
    pthread_cond_broadcast(&changed);
    if (MENDED)
        pthread_mutex_unlock(&lock);
    return unused;
}

int main(void)
{
    start_and_join((Body *[]){work, work, stop}, 3);
    return done == 1 ? 0 : 1;
}
