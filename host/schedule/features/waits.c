/* Waits that end: by time, by a join, or since another thread is let go first. */
#include <errno.h>
#include <stdatomic.h>
#include <stdlib.h>
#include <unistd.h>

#include "features.h"

static pthread_mutex_t mutex = PTHREAD_MUTEX_INITIALIZER;
static pthread_cond_t variable = PTHREAD_COND_INITIALIZER;
static atomic_bool is_set;

static void sleeps(void)
{
    struct timespec before = after(CLOCK_MONOTONIC, 0), year = {31536000, 0};

    CHECK(sleep(1000) == 0 && usleep(1000) == 0);
    CHECK(is_before(before, after(CLOCK_MONOTONIC, -1000000)) && !is_before(before, after(CLOCK_MONOTONIC, -1001500)));
    CHECK(clock_nanosleep(CLOCK_MONOTONIC, TIMER_ABSTIME, &before, NULL) == 0);
    year.tv_nsec = -1;
    CHECK(nanosleep(&year, NULL) == -1 && errno == EINVAL);
}

static void *sleep_long(void *unused)
{
    sleep(100);
    return unused;
}

static void *sleep_longer(void *unused)
{
    sleeps();
    return unused;
}

static void long_sleeps(void) { run_two(sleep_long, sleep_longer); }

static void *hold_long(void *unused)
{
    CHECK(pthread_mutex_lock(&mutex) == 0);
    is_set = true;
    sleep(10);
    CHECK(pthread_mutex_unlock(&mutex) == 0);
    return unused;
}

static void timed_locks(void)
{
    struct timespec bad = {0, -1}, time;
    pthread_t holder = start(hold_long, NULL);

    while (!is_set)
        sched_yield();
    time = after(CLOCK_REALTIME, 100);
    CHECK(pthread_mutex_timedlock(&mutex, &bad) == EINVAL && pthread_mutex_timedlock(&mutex, &time) == ETIMEDOUT);
    time = after(CLOCK_MONOTONIC, 100000);
    CHECK(pthread_mutex_clocklock(&mutex, CLOCK_MONOTONIC, &time) == 0);
    CHECK(pthread_cond_clockwait(&variable, &mutex, CLOCK_MONOTONIC, &time) == ETIMEDOUT);
    CHECK(!is_before(after(CLOCK_MONOTONIC, 0), time) && pthread_mutex_unlock(&mutex) == 0);
    CHECK(pthread_join(holder, NULL) == 0);
}

/* A lock of one's own mutex ends with its time. */
static void own_in_time(void)
{
    pthread_mutex_t own;
    struct timespec time = after(CLOCK_MONOTONIC, 100);

    make_mutex(&own, PTHREAD_MUTEX_NORMAL, false);
    CHECK(pthread_mutex_lock(&own) == 0 && pthread_mutex_clocklock(&own, CLOCK_MONOTONIC, &time) == ETIMEDOUT);
    CHECK(!is_before(after(CLOCK_MONOTONIC, 0), time) && pthread_mutex_unlock(&own) == 0);
}

static void *end_at_once(void *value) { return value; }

static void joins(void)
{
    int value;
    void *result;
    struct timespec time = after(CLOCK_REALTIME, 1000);
    pthread_t thread = start(sleep_long, NULL);

    CHECK(pthread_tryjoin_np(thread, NULL) == EBUSY && pthread_timedjoin_np(thread, NULL, &time) == ETIMEDOUT);
    CHECK(pthread_join(thread, NULL) == 0);
    thread = start(end_at_once, &value);
    CHECK(pthread_join(thread, &result) == 0 && result == &value);
    CHECK(pthread_detach(start(sleep_long, NULL)) == 0);
}

/* Each only lets the other go first, and the third sleeps. */
static void *yield_until_set(void *unused)
{
    while (!is_set)
        sched_yield();
    return unused;
}

static void *set_late(void *unused)
{
    sleep(10);
    is_set = true;
    return unused;
}

static void yields(void)
{
    pthread_t third = start(set_late, NULL);

    run_two(yield_until_set, yield_until_set);
    CHECK(pthread_join(third, NULL) == 0);
}

static void *try_until_locked(void *unused)
{
    while (pthread_mutex_trylock(&mutex) == EBUSY)
        continue;
    CHECK(pthread_mutex_unlock(&mutex) == 0);
    return unused;
}

static void trylocks(void) { run_two(hold_long, try_until_locked); }

/* A variable on which nobody waits may be used with another mutex. */
static void other_mutexes(void)
{
    pthread_mutex_t others[2] = {PTHREAD_MUTEX_INITIALIZER, PTHREAD_MUTEX_INITIALIZER};

    for (int i = 0; i < 600; i++) {
        pthread_mutex_t *mutex = &others[i % 2];
        struct timespec time = after(CLOCK_REALTIME, 1);
        CHECK(pthread_mutex_lock(mutex) == 0 && pthread_cond_timedwait(&variable, mutex, &time) == ETIMEDOUT);
        CHECK(pthread_mutex_unlock(mutex) == 0 && pthread_cond_signal(&variable) == 0);
    }
}

static pthread_key_t key;

static void lock_at_end(void *value)
{
    CHECK(pthread_mutex_lock(value) == 0 && pthread_mutex_unlock(value) == 0);
}

static void *end_by_exit(void *value)
{
    CHECK(pthread_setspecific(key, value) == 0);
    pthread_exit(value);
}

static void destructors(void)
{
    void *result;

    CHECK(pthread_key_create(&key, lock_at_end) == 0);
    CHECK(pthread_join(start(end_by_exit, &mutex), &result) == 0 && result == &mutex);
}

static void *set_and_exit(void *unused)
{
    is_set = true;
    return unused;
}

/* The process ends with its last thread. */
static void main_ends_first(void)
{
    start(set_and_exit, NULL);
    pthread_exit(NULL);
}

static pthread_mutex_t held_twice;
static bool is_told;

/* A wait with a recursive mutex that its thread holds twice. */
static void *wait_held_twice(void *unused)
{
    CHECK(pthread_mutex_lock(&held_twice) == 0 && pthread_mutex_lock(&held_twice) == 0);
    while (!is_told)
        CHECK(pthread_cond_wait(&variable, &held_twice) == 0);
    CHECK(pthread_mutex_unlock(&held_twice) == 0 && pthread_mutex_unlock(&held_twice) == 0);
    return unused;
}

static void *tell(void *unused)
{
    CHECK(pthread_mutex_lock(&held_twice) == 0);
    is_told = true;
    CHECK(pthread_cond_signal(&variable) == 0 && pthread_mutex_unlock(&held_twice) == 0);
    return unused;
}

static void waits_held_twice(void)
{
    make_mutex(&held_twice, PTHREAD_MUTEX_RECURSIVE, false);
    run_two(wait_held_twice, tell);
}

/* Two errors hold of a lock of one's own ERRORCHECK mutex whose time is over. */
static void locks_its_own_late(void)
{
    pthread_mutex_t own;
    struct timespec time = after(CLOCK_MONOTONIC, 0);

    make_mutex(&own, PTHREAD_MUTEX_ERRORCHECK, false);
    CHECK(pthread_mutex_lock(&own) == 0);
    int why = pthread_mutex_clocklock(&own, CLOCK_MONOTONIC, &time);
    CHECK(why == EDEADLK || why == ETIMEDOUT);
    if (why == ETIMEDOUT)
        exit(3);
}

const Feature wait_features[] = {
    {"long_sleeps", long_sleeps},     {"timed_locks", timed_locks}, {"own_in_time", own_in_time}, {"joins", joins},
    {"yields", yields},               {"trylocks", trylocks},       {"other_mutexes", other_mutexes},
    {"destructors", destructors},     {"main_ends_first", main_ends_first},
    {"waits_held_twice", waits_held_twice}, {"locks_its_own_late", locks_its_own_late}, {NULL, NULL},
};
