/* The path of an empty box unlocks, and falls through to the unlock of all paths. Mended: it returns. */
#include "programs.h"

static pthread_mutex_t lock = PTHREAD_MUTEX_INITIALIZER;
static int items;

static void *take(void *unused)
{
    pthread_mutex_lock(&lock);
    if (items == 0) {
        pthread_mutex_unlock(&lock);
        if (MENDED)
            return unused;
    } else {
        items--;
    }
    pthread_mutex_unlock(&lock);
    return unused;
}

static void *fill(void *unused)
{
    pthread_mutex_lock(&lock);
    items++;
    pthread_mutex_unlock(&lock);
    return unused;
}

int main(void)
{
    start_and_join((Body *[]){fill, take}, 2);
    return 0;
}
