/* A thread of low priority holds a mutex for which one of high priority waits, and one between the two goes on for long:
   the mutex lends no priority to its owner. Mended: it has PTHREAD_PRIO_INHERIT. It is seen in the order of SCHED_FIFO on
   one processor. */
#include <assert.h>
#include <time.h>

#include "programs.h"

enum { LOW = 10, MIDDLE = 20, HIGH = 30 };                         /* priorities */
enum { START = 1000, LATER = 20, SHORT = 100, LONG = 1000, LATE = 500 }; /* in microseconds */
enum { THOUSAND = 1000, MILLION = 1000000 };

static pthread_mutex_t mutex, of_low, of_middle;

static long now(void)
{
    struct timespec time;

    clock_gettime(CLOCK_MONOTONIC, &time);
    return time.tv_sec * MILLION + time.tv_nsec / THOUSAND;
}

/* Takes its priority, and sleeps. */
static void begin(int priority, long time)
{
    struct timespec length = {time / MILLION, time % MILLION * THOUSAND};

    pthread_setschedparam(pthread_self(), SCHED_FIFO, &(struct sched_param){priority});
    nanosleep(&length, NULL);
}

/* With calls, at which another thread may go first. */
static void work(pthread_mutex_t *own, long time)
{
    for (long end = now() + time; now() < end;) {
        pthread_mutex_lock(own);
        pthread_mutex_unlock(own);
    }
}

static void *hold(void *unused)
{
    begin(LOW, START);
    pthread_mutex_lock(&mutex);
    work(&of_low, SHORT);
    pthread_mutex_unlock(&mutex);
    return unused;
}

static void *go_between(void *unused)
{
    begin(MIDDLE, START + LATER);
    work(&of_middle, LONG);
    return unused;
}

static void *have_a_deadline(void *unused)
{
    begin(HIGH, START + LATER);
    long began = now();
    pthread_mutex_lock(&mutex);
    assert(now() - began < LATE);
    pthread_mutex_unlock(&mutex);
    return unused;
}

static void make_mutex(pthread_mutex_t *made, int protocol)
{
    pthread_mutexattr_t attributes;

    pthread_mutexattr_init(&attributes);
    pthread_mutexattr_setprotocol(&attributes, protocol);
    if (pthread_mutex_init(made, &attributes) != 0)
        exit(2);
}

int main(void)
{
    make_mutex(&mutex, MENDED ? PTHREAD_PRIO_INHERIT : PTHREAD_PRIO_NONE);
    make_mutex(&of_low, PTHREAD_PRIO_INHERIT);
    make_mutex(&of_middle, PTHREAD_PRIO_INHERIT);
    start_and_join((Body *[]){hold, go_between, have_a_deadline}, 3);
    return 0;
}
