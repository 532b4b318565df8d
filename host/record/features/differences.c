/* What recordings show of Linux and glibc that no run of the POSIX machine has. All threads are of SCHED_FIFO, on one
   processor: who is named above another one runs first. */
#include <sched.h>
#include <stdlib.h>

#include "features.h"

enum { LOW = 10, HIGH = 50, DRIVER = 60 };

static pthread_mutex_t mutex;
static pthread_cond_t variable = PTHREAD_COND_INITIALIZER;
static sem_t go_on;

static void demand(int failed)
{
    if (failed)
        abort();
}

static void become_driver(void)
{
    struct sched_param parameters = {.sched_priority = DRIVER};
    cpu_set_t first;

    CPU_ZERO(&first);
    CPU_SET(0, &first);
    demand(sched_setaffinity(0, sizeof first, &first));
    demand(sched_setscheduler(0, SCHED_FIFO, &parameters));
    make_inheriting(&mutex);
}

/* It runs until it blocks. */
static pthread_t start_at(int priority, void *(*body)(void *))
{
    struct sched_param parameters = {.sched_priority = priority};
    pthread_attr_t attributes;
    pthread_t thread;

    pthread_attr_init(&attributes);
    pthread_attr_setinheritsched(&attributes, PTHREAD_EXPLICIT_SCHED);
    pthread_attr_setschedpolicy(&attributes, SCHED_FIFO);
    pthread_attr_setschedparam(&attributes, &parameters);
    demand(pthread_create(&thread, &attributes, body, NULL));
    pthread_attr_destroy(&attributes);
    sleep_ms(SHORT_MS);
    return thread;
}

static void *unlock_and_lock_again(void *unused)
{
    (void)unused;
    pthread_mutex_lock(&mutex);
    until(&go_on);
    pthread_mutex_unlock(&mutex);
    pthread_mutex_trylock(&mutex);
    lock_and_unlock(&mutex);
    return NULL;
}

static void *lock_once(void *unused)
{
    (void)unused;
    lock_and_unlock(&mutex);
    return NULL;
}

/* The unlock names a new owner in the word, so that the trylock finds it busy. But that thread has not run. */
static void lock_is_stolen(void)
{
    become_driver();
    pthread_t high = start_at(HIGH, unlock_and_lock_again), low = start_at(LOW, lock_once);
    sem_post(&go_on);
    pthread_join(high, NULL);
    pthread_join(low, NULL);
}

static void *wait_once(void *unused)
{
    (void)unused;
    pthread_mutex_lock(&mutex);
    pthread_cond_wait(&variable, &mutex);
    pthread_mutex_unlock(&mutex);
    return NULL;
}

static void *wait_until_soon(void *unused)
{
    struct timespec deadline = after(CLOCK_REALTIME, 10 * SHORT_MS);

    (void)unused;
    pthread_mutex_lock(&mutex);
    pthread_cond_timedwait(&variable, &mutex, &deadline);
    pthread_mutex_unlock(&mutex);
    return NULL;
}

static void signal_and_sleep(void)
{
    pthread_cond_signal(&variable);
    sleep_ms(SHORT_MS);
}

/* Two wait before the first signal, and one of greater priority after it. The second signal is for the two. */
static void signal_to_the_older_group(void)
{
    become_driver();
    pthread_t first = start_at(LOW, wait_once), second = start_at(LOW, wait_once);
    signal_and_sleep();
    pthread_t high = start_at(HIGH, wait_until_soon);
    lock_and_unlock(&mutex);
    signal_and_sleep();
    pthread_join(high, NULL);
    pthread_join(first, NULL);
    pthread_join(second, NULL);
}

const Feature difference_features[] = {
    {"lock_is_stolen", "an unlock with a waiter, then a trylock and a lock of a greater thread", lock_is_stolen},
    {"signal_to_the_older_group", "a signal after a wait of a thread of greater priority", signal_to_the_older_group},
    {NULL, NULL, NULL},
};
