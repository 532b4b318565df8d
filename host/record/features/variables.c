/* Condition variables: waits, uses, and to which mutex they are bound. */
#include <stdatomic.h>
#include <sys/syscall.h>
#include <unistd.h>

#include "features.h"

static pthread_mutex_t mutex, other;
static pthread_cond_t variable;
static sem_t is_there;
static _Atomic pid_t waiter;

static void *wait_for_use(void *unused)
{
    (void)unused;
    atomic_store(&waiter, gettid());
    pthread_mutex_lock(&mutex);
    sem_post(&is_there);
    pthread_cond_wait(&variable, &mutex);
    pthread_mutex_unlock(&mutex);
    return NULL;
}

static void waits_and_uses(void)
{
    make_inheriting(&mutex);
    pthread_cond_init(&variable, NULL);
    for (int i = 0; i < 2; i++) {
        pthread_t thread = start(wait_for_use, NULL);
        until(&is_there);
        until_blocked(atomic_load(&waiter));
        if (i == 0)
            pthread_cond_signal(&variable);
        else
            pthread_cond_broadcast(&variable);
        pthread_join(thread, NULL);
    }
}

static void timed_waits(void)
{
    pthread_condattr_t attributes;
    pthread_cond_t monotonic;

    pthread_condattr_init(&attributes);
    pthread_condattr_setclock(&attributes, CLOCK_MONOTONIC);
    pthread_cond_init(&monotonic, &attributes);
    pthread_cond_init(&variable, NULL);
    make_inheriting(&mutex);
    pthread_mutex_lock(&mutex);
    struct timespec deadline = after(CLOCK_REALTIME, SHORT_MS);
    pthread_cond_timedwait(&variable, &mutex, &deadline);
    deadline = after(CLOCK_MONOTONIC, SHORT_MS);
    pthread_cond_timedwait(&monotonic, &mutex, &deadline);
    deadline = after(CLOCK_MONOTONIC, SHORT_MS);
    pthread_cond_clockwait(&variable, &mutex, CLOCK_MONOTONIC, &deadline);
    pthread_mutex_unlock(&mutex);
}

/* The deadline is reached within a tick, and the answer is seen in the next one. */
static void within_a_tick(void)
{
    make_inheriting(&mutex);
    pthread_cond_init(&variable, NULL);
    step_of_clock = 300;
    pthread_mutex_lock(&mutex);
    struct timespec deadline = {1, 2300};
    pthread_cond_clockwait(&variable, &mutex, CLOCK_MONOTONIC, &deadline);
    pthread_mutex_unlock(&mutex);
}

static void wait_with(pthread_mutex_t *with)
{
    struct timespec deadline = {0, 0};

    pthread_mutex_lock(with);
    pthread_cond_timedwait(&variable, with, &deadline);
    pthread_mutex_unlock(with);
}

static void bound_anew(void)
{
    pthread_cond_init(&variable, NULL);
    make_inheriting(&mutex);
    make_inheriting(&other);
    pthread_cond_signal(&variable); /* before it is bound */
    wait_with(&mutex);
    pthread_cond_signal(&variable);
    wait_with(&other);
    pthread_cond_broadcast(&variable);
    wait_with(&mutex);
}

static void *signal_it(void *unused)
{
    (void)unused;
    atomic_store(&waiter, gettid());
    pthread_cond_signal(&variable);
    return NULL;
}

/* A library below the recorder lets each signal last. */
static void bound_under_a_signal(void)
{
    pthread_cond_init(&variable, NULL);
    make_inheriting(&mutex);
    make_inheriting(&other);
    wait_with(&mutex);
    pthread_t thread = start(signal_it, NULL);
    while (atomic_load(&waiter) == 0)
        sleep_ms(1);
    until_in(atomic_load(&waiter), SYS_clock_nanosleep);
    wait_with(&other);
    pthread_join(thread, NULL);
}

static void never_waited(void)
{
    pthread_cond_init(&variable, NULL);
    make_inheriting(&mutex);
    pthread_cond_signal(&variable);
    pthread_cond_broadcast(&variable);
    lock_and_unlock(&mutex);
}

const Feature variable_features[] = {
    {"waits_and_uses", "a signal, and a broadcast", waits_and_uses},
    {"within_a_tick", "a deadline that is reached within a microsecond", within_a_tick},
    {"timed_waits", "deadlines on both clocks", timed_waits},
    {"bound_anew", "one variable with two mutexes, and a signal before both", bound_anew},
    {"bound_in_a_signal", "a variable is bound anew while a signal is under way", bound_under_a_signal},
    {"never_waited", "uses of a variable on which nobody waits", never_waited},
    {NULL, NULL, NULL},
};
