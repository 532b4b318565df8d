/* Mutexes: kinds, initialisations, timed locks, owners that end. */
#include "features.h"

static void kinds(void)
{
    static const int types[] = {PTHREAD_MUTEX_NORMAL, PTHREAD_MUTEX_ERRORCHECK, PTHREAD_MUTEX_RECURSIVE};
    static pthread_mutex_t mutexes[3];

    for (int i = 0; i < 3; i++) {
        make_mutex(&mutexes[i], types[i], i == 1, PTHREAD_PRIO_INHERIT);
        pthread_mutex_lock(&mutexes[i]);
        pthread_mutex_trylock(&mutexes[i]);
        if (i > 0)
            pthread_mutex_lock(&mutexes[i]);
        pthread_mutex_consistent(&mutexes[i]);
        for (int times = i == 2 ? 3 : 1; times > 0; times--)
            pthread_mutex_unlock(&mutexes[i]);
    }
    pthread_mutex_unlock(&mutexes[1]);
}

static void static_objects(void)
{
    static pthread_mutex_t normal = PTHREAD_MUTEX_INITIALIZER, recursive = PTHREAD_RECURSIVE_MUTEX_INITIALIZER_NP,
                           errorcheck = PTHREAD_ERRORCHECK_MUTEX_INITIALIZER_NP,
                           adaptive = PTHREAD_ADAPTIVE_MUTEX_INITIALIZER_NP;
    static pthread_cond_t variable = PTHREAD_COND_INITIALIZER;
    struct timespec deadline = {0, 0};

    lock_and_unlock(&normal);
    lock_and_unlock(&recursive);
    lock_and_unlock(&errorcheck);
    pthread_mutex_lock(&adaptive);
    pthread_cond_timedwait(&variable, &adaptive, &deadline);
    pthread_mutex_unlock(&adaptive);
}

static void without_inheritance(void)
{
    static const int types[] = {PTHREAD_MUTEX_NORMAL, PTHREAD_MUTEX_ERRORCHECK, PTHREAD_MUTEX_RECURSIVE};
    static pthread_mutex_t mutexes[6];

    for (int i = 0; i < 6; i++) {
        make_mutex(&mutexes[i], types[i % 3], i >= 3, PTHREAD_PRIO_NONE);
        lock_and_unlock(&mutexes[i]);
    }
}

static void plain_and_inheriting(void)
{
    static pthread_mutex_t plain, inheriting;
    static pthread_cond_t variable;
    struct timespec deadline = {0, 0};

    pthread_mutex_init(&plain, NULL);
    pthread_cond_init(&variable, NULL);
    make_inheriting(&inheriting);
    pthread_mutex_lock(&plain);
    pthread_cond_timedwait(&variable, &plain, &deadline);
    pthread_mutex_unlock(&plain);
    pthread_cond_signal(&variable);
    lock_and_unlock(&inheriting);
}

static pthread_mutex_t shared_by_threads;

static void *wait_for_it(void *unused)
{
    struct timespec soon = after(CLOCK_REALTIME, SHORT_MS), later, past = {0, 0};

    (void)unused;
    pthread_mutex_timedlock(&shared_by_threads, &soon);
    later = after(CLOCK_MONOTONIC, SHORT_MS);
    pthread_mutex_clocklock(&shared_by_threads, CLOCK_MONOTONIC, &later);
    pthread_mutex_timedlock(&shared_by_threads, &past);
    return NULL;
}

static void timed_locks(void)
{
    struct timespec far = after(CLOCK_MONOTONIC, 100000000);

    make_inheriting(&shared_by_threads);
    pthread_mutex_lock(&shared_by_threads);
    run_to_end(wait_for_it, NULL);
    pthread_mutex_unlock(&shared_by_threads);
    pthread_mutex_clocklock(&shared_by_threads, CLOCK_MONOTONIC, &far);
    pthread_mutex_unlock(&shared_by_threads);
}

static void bad_times(void)
{
    struct timespec bad = {0, 1000000000};
    static pthread_cond_t variable = PTHREAD_COND_INITIALIZER;

    make_mutex(&shared_by_threads, PTHREAD_MUTEX_NORMAL, false, PTHREAD_PRIO_INHERIT);
    pthread_mutex_timedlock(&shared_by_threads, &bad); /* it is free: this is a lock */
    pthread_mutex_timedlock(&shared_by_threads, &bad);
    pthread_cond_timedwait(&variable, &shared_by_threads, &bad);
    pthread_cond_clockwait(&variable, &shared_by_threads, CLOCK_THREAD_CPUTIME_ID, &bad);
    pthread_mutex_unlock(&shared_by_threads);
}

static void *lock_and_end(void *mutex)
{
    pthread_mutex_lock(mutex);
    return NULL;
}

static void owners_end(void)
{
    static pthread_mutex_t robust;

    make_mutex(&robust, PTHREAD_MUTEX_ERRORCHECK, true, PTHREAD_PRIO_INHERIT);
    run_to_end(lock_and_end, &robust);
    pthread_mutex_lock(&robust);
    pthread_mutex_consistent(&robust);
    pthread_mutex_unlock(&robust);
    run_to_end(lock_and_end, &robust);
    pthread_mutex_trylock(&robust);
    pthread_mutex_unlock(&robust);
    pthread_mutex_lock(&robust);
}

/* As programs name them that were linked with an older glibc; on other machines the versions have other numbers. */
#ifdef __x86_64__
__asm__(".symver old_init, __pthread_mutex_init@GLIBC_2.2.5");
__asm__(".symver old_lock, __pthread_mutex_lock@GLIBC_2.2.5");
__asm__(".symver old_trylock, __pthread_mutex_trylock@GLIBC_2.2.5");
__asm__(".symver old_unlock, __pthread_mutex_unlock@GLIBC_2.2.5");
__asm__(".symver old_destroy, __pthread_mutex_destroy@GLIBC_2.2.5");
__asm__(".symver old_consistent, pthread_mutex_consistent_np@GLIBC_2.4");
int old_init(pthread_mutex_t *, const pthread_mutexattr_t *);
int old_lock(pthread_mutex_t *), old_trylock(pthread_mutex_t *), old_unlock(pthread_mutex_t *);
int old_destroy(pthread_mutex_t *), old_consistent(pthread_mutex_t *);
#else
#define old_init pthread_mutex_init
#define old_lock pthread_mutex_lock
#define old_trylock pthread_mutex_trylock
#define old_unlock pthread_mutex_unlock
#define old_destroy pthread_mutex_destroy
#define old_consistent pthread_mutex_consistent
#endif

static void old_names(void)
{
    static pthread_mutex_t mutex;

    old_init(&mutex, NULL);
    old_lock(&mutex);
    old_trylock(&mutex);
    old_consistent(&mutex);
    old_unlock(&mutex);
    old_destroy(&mutex);
}

static void initialised_again(void)
{
    static pthread_mutex_t mutex;
    static pthread_cond_t variable;
    struct timespec deadline = {0, 0};

    for (int i = 0; i < 2; i++) {
        make_inheriting(&mutex);
        pthread_cond_init(&variable, NULL);
        pthread_mutex_lock(&mutex);
        pthread_cond_timedwait(&variable, &mutex, &deadline);
        pthread_mutex_unlock(&mutex);
        pthread_cond_destroy(&variable);
        pthread_mutex_destroy(&mutex);
    }
    make_inheriting(&mutex);
    pthread_mutex_lock(&mutex);
    for (int i = 0; i < 2; i++) {
        make_mutex(&mutex, PTHREAD_MUTEX_RECURSIVE, false, PTHREAD_PRIO_INHERIT);
        lock_and_unlock(&mutex);
    }
}

const Feature mutex_features[] = {
    {"kinds", "normal, errorcheck robust and recursive mutexes", kinds},
    {"static_objects", "static initialisers", static_objects},
    {"without_inheritance", "mutexes of each kind with PTHREAD_PRIO_NONE, robust and not", without_inheritance},
    {"inheriting_alone", "a plain mutex beside one that inherits", plain_and_inheriting},
    {"timed_locks", "deadlines on both clocks, reached, past and far", timed_locks},
    {"bad_times", "calls with a timespec that is none", bad_times},
    {"old_names", "the names that older glibcs had", old_names},
    {"owners_end", "threads that end while they hold a robust mutex", owners_end},
    {"initialised_again", "an address with one object after another", initialised_again},
    {NULL, NULL, NULL},
};
