/* Two threads lock the same two mutexes in opposite orders. Mended: in the same order. */
#include "programs.h"

static pthread_mutex_t first = PTHREAD_MUTEX_INITIALIZER, second = PTHREAD_MUTEX_INITIALIZER;
static int moved;

static void move_under(pthread_mutex_t *outer, pthread_mutex_t *inner)
{
    pthread_mutex_lock(outer);
    pthread_mutex_lock(inner);
    moved++;
    pthread_mutex_unlock(inner);
    pthread_mutex_unlock(outer);
}

static void *there(void *unused)
{
    move_under(&first, &second);
    return unused;
}

static void *back(void *unused)
{
    if (MENDED)
        move_under(&first, &second);
    else
        move_under(&second, &first);
    return unused;
}

int main(void)
{
    start_and_join((Body *[]){there, back}, 2);
    return moved == 2 ? 0 : 1;
}
