/* Who finds that the owner of a robust mutex died mends what it protects, and doesn't say so: the mutex can't be locked
   again. Mended: pthread_mutex_consistent. It needs a thread that dies. */
#include <assert.h>
#include <errno.h>

#include "programs.h"

static pthread_mutex_t lock;
static int sum, count;

static void *add(void *unused)
{
    int answer = pthread_mutex_lock(&lock);

    if (answer == EOWNERDEAD) {
        count = sum;
        if (MENDED)
            pthread_mutex_consistent(&lock);
    }
    assert(answer == 0 || answer == EOWNERDEAD);
    sum++;
    count++;
    pthread_mutex_unlock(&lock);
    return unused;
}

int main(void)
{
    pthread_mutexattr_t attributes;

    pthread_mutexattr_init(&attributes);
    pthread_mutexattr_setrobust(&attributes, PTHREAD_MUTEX_ROBUST);
    pthread_mutex_init(&lock, &attributes);
    start_and_join((Body *[]){add, add, add}, 3);
    return sum == count ? 0 : 1;
}
