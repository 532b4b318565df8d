/* What a lock or unlock costs on a mutex with PTHREAD_PRIO_INHERIT that nobody else wants, by so many threads at once,
   each with a mutex of its own. It is the threads' own time that is measured, so that other programs on this machine do
   not count. */
#include <pthread.h>
#include <stdint.h>
#include <stdio.h>
#include <stdlib.h>
#include <time.h>

enum { ROUNDS = 50, PAIRS = 2000, MOST_THREADS = 64 };

static uint64_t rounds[MOST_THREADS][ROUNDS];
static pthread_barrier_t start;

static uint64_t now(void)
{
    struct timespec time;

    clock_gettime(CLOCK_THREAD_CPUTIME_ID, &time);
    return (uint64_t)time.tv_sec * 1000000000u + (uint64_t)time.tv_nsec;
}

static void lock_and_unlock(pthread_mutex_t *mutex)
{
    for (int i = 0; i < PAIRS; i++) {
        pthread_mutex_lock(mutex);
        pthread_mutex_unlock(mutex);
    }
}

static int order(const void *first, const void *second)
{
    uint64_t a = *(const uint64_t *)first, b = *(const uint64_t *)second;

    return a < b ? -1 : a > b;
}

static void *measure(void *place)
{
    uint64_t *taken = place;
    pthread_mutexattr_t attributes;
    pthread_mutex_t mutex;

    pthread_mutexattr_init(&attributes);
    pthread_mutexattr_setprotocol(&attributes, PTHREAD_PRIO_INHERIT);
    pthread_mutex_init(&mutex, &attributes);
    pthread_barrier_wait(&start);
    for (int i = 0; i < ROUNDS; i++) {
        uint64_t begin = now();
        lock_and_unlock(&mutex);
        taken[i] = now() - begin;
    }
    return NULL;
}

static void print(unsigned threads)
{
    uint64_t *all = &rounds[0][0], sum = 0;
    unsigned count = threads * ROUNDS;
    double calls = 2.0 * PAIRS;

    for (unsigned i = 0; i < count; i++)
        sum += all[i];
    qsort(all, count, sizeof *all, order);
    printf("%.0f least, %.0f middle, %.0f mean nanoseconds a call\n", (double)all[0] / calls,
           (double)all[count / 2] / calls, (double)sum / calls / count);
}

/* measure [THREADS]: prints the least, the middle and the mean of all rounds, for one call. */
int main(int count, char **words)
{
    pthread_t others[MOST_THREADS];
    unsigned threads = count == 2 ? (unsigned)atoi(words[1]) : 1;

    if (threads < 1 || threads > MOST_THREADS)
        return 1;
    pthread_barrier_init(&start, NULL, threads);
    for (unsigned i = 1; i < threads; i++)
        if (pthread_create(&others[i], NULL, measure, rounds[i]) != 0)
            return 1;
    measure(rounds[0]);
    for (unsigned i = 1; i < threads; i++)
        pthread_join(others[i], NULL);
    print(threads);
    return 0;
}
