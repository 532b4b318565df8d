/* A thread that finds out that it has to stop returns, and keeps the mutex. Mended: it unlocks. */
#include "programs.h"

static pthread_mutex_t lock = PTHREAD_MUTEX_INITIALIZER;
static bool is_stopped;
static int done;

static void *work(void *unused)
{
    pthread_mutex_lock(&lock);
    if (is_stopped) {
        if (MENDED)
            pthread_mutex_unlock(&lock);
        return unused;
    }
    done++;
    pthread_mutex_unlock(&lock);
    return unused;
}

static void *stop(void *unused)
{
    pthread_mutex_lock(&lock);
    is_stopped = true;
    pthread_mutex_unlock(&lock);
    return unused;
}

int main(void)
{
    start_and_join((Body *[]){work, stop}, 2);
    pthread_mutex_lock(&lock);
    int is_right = done <= 1;
    pthread_mutex_unlock(&lock);
    return is_right ? 0 : 1;
}
