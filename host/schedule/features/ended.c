/* Programs whose runs the library ends: by a failure, or since it can't go on. */
#include <errno.h>
#include <sched.h>
#include <semaphore.h>
#include <signal.h>
#include <stdio.h>
#include <stdlib.h>
#include <sys/select.h>
#include <unistd.h>

#include "features.h"

static pthread_mutex_t mutex = PTHREAD_MUTEX_INITIALIZER, other = PTHREAD_MUTEX_INITIALIZER;
static pthread_cond_t variable = PTHREAD_COND_INITIALIZER;

static void *do_nothing(void *unused) { return unused; }

static void *sleep_long(void *unused)
{
    sleep(1);
    return unused;
}

static void locks_twice(void)
{
    pthread_mutex_lock(&mutex);
    pthread_mutex_lock(&mutex);
}

static void unlocks_another(void)
{
    pthread_mutex_t checked;

    make_mutex(&checked, PTHREAD_MUTEX_ERRORCHECK, false);
    pthread_mutex_unlock(&checked);
}

static void waits_unlocked(void) { pthread_cond_wait(&variable, &mutex); }

static void destroys_locked(void)
{
    pthread_mutex_lock(&mutex);
    pthread_mutex_destroy(&mutex);
}

static void *wait_with_mutex(void *unused)
{
    pthread_mutex_lock(&mutex);
    pthread_cond_wait(&variable, &mutex);
    return unused;
}

static void *wait_with_other(void *unused)
{
    pthread_mutex_lock(&other);
    pthread_cond_wait(&variable, &other);
    return unused;
}

static void waits_with_two(void) { run_two(wait_with_mutex, wait_with_other); }

static void joins_itself(void) { pthread_join(pthread_self(), NULL); }

static void joins_twice(void)
{
    pthread_t thread = start(do_nothing, NULL);

    pthread_join(thread, NULL);
    pthread_join(thread, NULL);
}

static void locks_for_ever(void)
{
    for (;;) {
        pthread_mutex_lock(&mutex);
        pthread_mutex_unlock(&mutex);
    }
}

static void loops(void)
{
    start(do_nothing, NULL);
    for (volatile int i = 0; i >= 0;)
        continue;
}

static void *hold_and_sleep(void *unused)
{
    pthread_mutex_lock(&mutex);
    sleep(1);
    pthread_mutex_lock(&other);
    return unused;
}

/* A timed wait ends a cycle: the second lock is answered ETIMEDOUT, and the first thread goes on. */
static void *undo_the_cycle(void *unused)
{
    pthread_mutex_lock(&other);
    struct timespec late = after(CLOCK_REALTIME, 5000);
    sleep(2);
    CHECK(pthread_mutex_timedlock(&mutex, &late) == ETIMEDOUT);
    pthread_mutex_unlock(&other);
    return unused;
}

static void cycle_in_time(void) { run_two(hold_and_sleep, undo_the_cycle); }

static void faults(void) { raise(SIGSEGV); }

static void prints(void)
{
    start(do_nothing, NULL);
    puts("printed");
}

static void ends_with_4(void)
{
    start(do_nothing, NULL);
    exit(4);
}

static void cancels(void) { pthread_cancel(start(sleep_long, NULL)); }

static void protects(void)
{
    pthread_mutexattr_t attributes;

    pthread_mutexattr_init(&attributes);
    pthread_mutexattr_setprotocol(&attributes, PTHREAD_PRIO_PROTECT);
    pthread_mutex_init(&mutex, &attributes);
    pthread_mutex_lock(&mutex);
}

static void shares(void)
{
    pthread_mutexattr_t attributes;

    pthread_mutexattr_init(&attributes);
    pthread_mutexattr_setpshared(&attributes, PTHREAD_PROCESS_SHARED);
    pthread_mutex_init(&mutex, &attributes);
}

static void shares_semaphore(void)
{
    sem_t semaphore;

    sem_init(&semaphore, 1, 0);
}

static void shares_barrier(void)
{
    pthread_barrierattr_t attributes;
    pthread_barrier_t barrier;

    pthread_barrierattr_init(&attributes);
    pthread_barrierattr_setpshared(&attributes, PTHREAD_PROCESS_SHARED);
    pthread_barrier_init(&barrier, &attributes, 1);
}

static void shares_rwlock(void)
{
    pthread_rwlockattr_t attributes;
    pthread_rwlock_t lock;

    pthread_rwlockattr_init(&attributes);
    pthread_rwlockattr_setpshared(&attributes, PTHREAD_PROCESS_SHARED);
    pthread_rwlock_init(&lock, &attributes);
}

static void shares_variable(void)
{
    pthread_condattr_t attributes;
    pthread_cond_t shared;

    pthread_condattr_init(&attributes);
    pthread_condattr_setpshared(&attributes, PTHREAD_PROCESS_SHARED);
    pthread_cond_init(&shared, &attributes);
    pthread_mutex_lock(&mutex);
    pthread_cond_wait(&shared, &mutex);
}

static void sets_ceiling(void)
{
    int old;

    start(do_nothing, NULL);
    pthread_mutex_setprioceiling(&mutex, 1, &old);
}

static void sets_scheduler(void)
{
    start(do_nothing, NULL);
    sched_setscheduler(0, SCHED_FIFO, &(struct sched_param){1});
}

static void selects_with_mask(void)
{
    sigset_t none;

    start(do_nothing, NULL);
    sigemptyset(&none);
    pselect(0, NULL, NULL, NULL, NULL, &none);
}

static void too_many_mutexes(void)
{
    static pthread_mutex_t mutexes[1025];

    for (int i = 0; i < 1025; i++) {
        pthread_mutex_init(&mutexes[i], NULL);
        pthread_mutex_lock(&mutexes[i]);
    }
}

static void named_semaphore(void) { sem_open("/pif", 0); }

static void too_many_threads(void)
{
    for (int i = 0; i < 1100; i++)
        pthread_join(start(do_nothing, NULL), NULL);
}

static void sleeps_too_long(void)
{
    start(do_nothing, NULL);
    sleep(5000);
}

static void makes_no_call(void) {}

const Feature ended_features[] = {
    {"locks_twice", locks_twice},       {"unlocks_another", unlocks_another},   {"waits_unlocked", waits_unlocked},
    {"destroys_locked", destroys_locked}, {"waits_with_two", waits_with_two},   {"joins_itself", joins_itself},
    {"joins_twice", joins_twice},       {"locks_for_ever", locks_for_ever},     {"loops", loops},
    {"cycle_in_time", cycle_in_time},   {"faults", faults},                     {"prints", prints},
    {"ends_with_4", ends_with_4},       {"cancels", cancels},                   {"protects", protects},
    {"shares", shares},                 {"named_semaphore", named_semaphore},
    {"shares_semaphore", shares_semaphore}, {"shares_barrier", shares_barrier}, {"shares_rwlock", shares_rwlock},
    {"shares_variable", shares_variable}, {"sets_ceiling", sets_ceiling}, {"sets_scheduler", sets_scheduler},
    {"selects_with_mask", selects_with_mask}, {"too_many_mutexes", too_many_mutexes},
    {"too_many_threads", too_many_threads}, {"sleeps_too_long", sleeps_too_long}, {"makes_no_call", makes_no_call},
    {NULL, NULL},
};
