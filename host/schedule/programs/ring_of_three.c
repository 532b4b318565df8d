/* Three threads lock two of three mutexes each, in a ring. Mended: each locks the one of lower number first. */
#include "programs.h"

enum { COUNT = 3 };

static pthread_mutex_t locks[COUNT] = {PTHREAD_MUTEX_INITIALIZER, PTHREAD_MUTEX_INITIALIZER, PTHREAD_MUTEX_INITIALIZER};
static int meals;

static void *dine(void *number)
{
    long left = (long)number, right = (left + 1) % COUNT;
    bool is_turned = MENDED && right < left;

    pthread_mutex_lock(&locks[is_turned ? right : left]);
    pthread_mutex_lock(&locks[is_turned ? left : right]);
    meals++;
    pthread_mutex_unlock(&locks[right]);
    pthread_mutex_unlock(&locks[left]);
    return NULL;
}

int main(void)
{
    start_and_join((Body *[]){dine, dine, dine}, COUNT);
    return meals == COUNT ? 0 : 1;
}
