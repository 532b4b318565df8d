/* Long runs of which a flight recorder keeps the last parts alone: what stands at their first line is from before. */
#include <errno.h>
#include <stdatomic.h>
#include <unistd.h>

#include "features.h"

enum { MANY = 1000 };

static pthread_mutex_t mutex, held, twice, busy, of_waiter;
static pthread_cond_t variable;
static sem_t is_there;
static _Atomic pid_t waiter;

static void work(void)
{
    for (int i = 0; i < MANY; i++)
        lock_and_unlock(&busy);
}

/* The first of the waiters owns another mutex, too. */
static void *wait_for_a_job(void *owned)
{
    atomic_store(&waiter, gettid());
    if (owned != NULL)
        pthread_mutex_lock(owned);
    pthread_mutex_lock(&mutex);
    sem_post(&is_there);
    pthread_cond_wait(&variable, &mutex);
    pthread_mutex_unlock(&mutex);
    if (owned != NULL)
        pthread_mutex_unlock(owned);
    return NULL;
}

/* Two wait, one behind the other, and the first thread holds one mutex once and one twice. */
static void flight(void)
{
    pthread_t waiters[2];

    make_inheriting(&mutex);
    make_inheriting(&held);
    make_inheriting(&busy);
    make_inheriting(&of_waiter);
    make_mutex(&twice, PTHREAD_MUTEX_RECURSIVE, false, PTHREAD_PRIO_INHERIT);
    pthread_cond_init(&variable, NULL);
    for (int i = 0; i < 2; i++) {
        waiters[i] = start(wait_for_a_job, i == 0 ? &of_waiter : NULL);
        until(&is_there);
        until_blocked(atomic_load(&waiter));
    }
    pthread_mutex_lock(&held);
    pthread_mutex_lock(&twice);
    pthread_mutex_lock(&twice);
    work();
    pthread_cond_signal(&variable);
    pthread_join(waiters[0], NULL);
    pthread_cond_signal(&variable);
    pthread_join(waiters[1], NULL);
    pthread_mutex_unlock(&twice);
    pthread_mutex_unlock(&twice);
    pthread_mutex_unlock(&held);
}

static _Atomic pid_t pool[2];

static void *wait_twice(void *place)
{
    atomic_store((_Atomic pid_t *)place, gettid());
    pthread_mutex_lock(&mutex);
    for (int i = 0; i < 2; i++) {
        sem_post(&is_there);
        pthread_cond_wait(&variable, &mutex);
    }
    pthread_mutex_unlock(&mutex);
    return NULL;
}

static void until_all_wait(void)
{
    for (int i = 0; i < 2; i++)
        until(&is_there);
    for (int i = 0; i < 2; i++)
        until_blocked(atomic_load(&pool[i]));
}

/* Who is woken returns when the mutex is given up, after much else. */
static void work_with(int (*use)(pthread_cond_t *))
{
    pthread_mutex_lock(&mutex);
    use(&variable);
    work();
    pthread_mutex_unlock(&mutex);
}

/* A broadcast wakes both, which wait again, and a signal one of them. */
static void woken_before(void)
{
    pthread_t waiters[2];

    make_inheriting(&mutex);
    make_inheriting(&busy);
    pthread_cond_init(&variable, NULL);
    for (int i = 0; i < 2; i++)
        waiters[i] = start(wait_twice, &pool[i]);
    until_all_wait();
    work_with(pthread_cond_broadcast);
    until_all_wait();
    work();
    work_with(pthread_cond_signal);
    sleep_ms(SHORT_MS);
    pthread_cond_broadcast(&variable);
    for (int i = 0; i < 2; i++)
        pthread_join(waiters[i], NULL);
}

static void *lock_held(void *unused)
{
    atomic_store(&waiter, gettid());
    sem_post(&is_there);
    lock_and_unlock(&held);
    return unused;
}

static void waits_for_a_lock(void)
{
    make_inheriting(&held);
    make_inheriting(&busy);
    pthread_mutex_lock(&held);
    pthread_t thread = start(lock_held, NULL);
    until(&is_there);
    until_blocked(atomic_load(&waiter));
    work();
    pthread_mutex_unlock(&held);
    pthread_join(thread, NULL);
}

static void *end_with_it(void *unused)
{
    pthread_mutex_lock(&held);
    return unused;
}

/* It is made consistent at the end alone. */
static void stays_inconsistent(void)
{
    make_mutex(&held, PTHREAD_MUTEX_NORMAL, true, PTHREAD_PRIO_INHERIT);
    run_to_end(end_with_it, NULL);
    pthread_mutex_lock(&held);
    for (int i = 0; i < MANY; i++)
        pthread_mutex_trylock(&held);
    pthread_mutex_consistent(&held);
    pthread_mutex_unlock(&held);
}

/* Two hours, and a deadline within the second one. */
static void all_day(void)
{
    make_inheriting(&mutex);
    lock_and_unlock(&mutex);
    skipped_seconds += 4000;
    struct timespec deadline = after(CLOCK_REALTIME, SHORT_MS);
    pthread_mutex_lock(&mutex);
    pthread_mutex_timedlock(&mutex, &deadline);
    pthread_mutex_unlock(&mutex);
    skipped_seconds += 4000;
    deadline = after(CLOCK_REALTIME, SHORT_MS);
    if (pthread_mutex_timedlock(&mutex, &deadline) == 0)
        pthread_mutex_unlock(&mutex);
}

const Feature part_features[] = {
    {"flight", "two threads wait, and two mutexes are held, all the time", flight},
    {"woken_before", "two threads that were woken wait again, all the time", woken_before},
    {"waits_for_a_lock", "a thread waits for a mutex all the time", waits_for_a_lock},
    {"stays_inconsistent", "a robust mutex is inconsistent all the time", stays_inconsistent},
    {"all_day", "more than 71 minutes, with deadlines", all_day},
    {NULL, NULL, NULL},
};
