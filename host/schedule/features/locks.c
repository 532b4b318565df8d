/* Locks of each kind. */
#include <errno.h>
#include <semaphore.h>
#include <stdatomic.h>
#include <stdlib.h>
#include <string.h>
#include <threads.h>

#include "features.h"

static pthread_mutex_t mutex;

static void kinds(void)
{
    make_mutex(&mutex, PTHREAD_MUTEX_RECURSIVE, false);
    CHECK(pthread_mutex_lock(&mutex) == 0 && pthread_mutex_lock(&mutex) == 0);
    CHECK(pthread_mutex_unlock(&mutex) == 0 && pthread_mutex_unlock(&mutex) == 0);
    CHECK(pthread_mutex_unlock(&mutex) == EPERM);
    CHECK(pthread_mutex_destroy(&mutex) == 0);
    make_mutex(&mutex, PTHREAD_MUTEX_ERRORCHECK, false);
    CHECK(pthread_mutex_lock(&mutex) == 0 && pthread_mutex_lock(&mutex) == EDEADLK);
    CHECK(pthread_mutex_trylock(&mutex) == EBUSY);
    CHECK(pthread_mutex_unlock(&mutex) == 0 && pthread_mutex_unlock(&mutex) == EPERM);
}

static void *die_with_it(void *unused)
{
    CHECK(pthread_mutex_lock(&mutex) == 0);
    return unused;
}

static void robust(void)
{
    make_mutex(&mutex, PTHREAD_MUTEX_NORMAL, true);
    pthread_join(start(die_with_it, NULL), NULL);
    CHECK(pthread_mutex_lock(&mutex) == EOWNERDEAD);
    CHECK(pthread_mutex_consistent(&mutex) == 0 && pthread_mutex_unlock(&mutex) == 0);
    pthread_join(start(die_with_it, NULL), NULL);
    CHECK(pthread_mutex_lock(&mutex) == EOWNERDEAD && pthread_mutex_unlock(&mutex) == 0);
    CHECK(pthread_mutex_lock(&mutex) == ENOTRECOVERABLE);
}

/* More mutexes than a core has, one after another: those that are destroyed, and those that are only made anew. */
static void many_mutexes(void)
{
    for (int i = 0; i < 3000; i++) {
        pthread_mutex_t on_stack = PTHREAD_MUTEX_INITIALIZER, *on_heap = malloc(sizeof *on_heap);
        make_mutex(on_heap, PTHREAD_MUTEX_NORMAL, false);
        CHECK(pthread_mutex_lock(&on_stack) == 0 && pthread_mutex_unlock(&on_stack) == 0);
        CHECK(pthread_mutex_lock(on_heap) == 0 && pthread_mutex_unlock(on_heap) == 0);
        CHECK(pthread_mutex_destroy(on_heap) == 0);
        free(on_heap);
    }
}

static sem_t semaphore;
static atomic_int passed;

static void *post_twice(void *unused)
{
    CHECK(sem_post(&semaphore) == 0 && sem_post(&semaphore) == 0);
    return unused;
}

static void *wait_twice(void *unused)
{
    struct timespec late = after(CLOCK_REALTIME, 10);
    int value;

    CHECK(sem_wait(&semaphore) == 0 && sem_wait(&semaphore) == 0);
    CHECK(sem_getvalue(&semaphore, &value) == 0 && value == 0);
    CHECK(sem_trywait(&semaphore) == -1 && errno == EAGAIN);
    CHECK(sem_timedwait(&semaphore, &late) == -1 && errno == ETIMEDOUT);
    return unused;
}

static void semaphores(void)
{
    CHECK(sem_init(&semaphore, 0, 0) == 0);
    run_two(post_twice, wait_twice);
    CHECK(sem_destroy(&semaphore) == 0);
}

static pthread_rwlock_t lock = PTHREAD_RWLOCK_INITIALIZER;
static atomic_int written, readers;

static void *write_it(void *unused)
{
    CHECK(pthread_rwlock_wrlock(&lock) == 0);
    CHECK(readers == 0 && pthread_rwlock_tryrdlock(&lock) == EBUSY);
    written++;
    CHECK(pthread_rwlock_unlock(&lock) == 0);
    return unused;
}

static void *read_it(void *unused)
{
    CHECK(pthread_rwlock_rdlock(&lock) == 0);
    int before = written;
    readers++;
    sched_yield();
    CHECK(written == before && pthread_rwlock_trywrlock(&lock) == EBUSY);
    readers--;
    CHECK(pthread_rwlock_unlock(&lock) == 0);
    return unused;
}

static void *read_too_late(void *unused)
{
    struct timespec late = after(CLOCK_REALTIME, 10);

    CHECK(pthread_rwlock_timedrdlock(&lock, &late) == ETIMEDOUT);
    return unused;
}

static void rwlocks(void)
{
    struct timespec late = after(CLOCK_REALTIME, 10);

    run_two(write_it, read_it);
    CHECK(pthread_rwlock_rdlock(&lock) == 0 && pthread_rwlock_rdlock(&lock) == 0);
    CHECK(pthread_rwlock_timedwrlock(&lock, &late) == ETIMEDOUT);
    CHECK(pthread_rwlock_unlock(&lock) == 0 && pthread_rwlock_unlock(&lock) == 0);
    late = after(CLOCK_MONOTONIC, 10);
    CHECK(pthread_rwlock_clockwrlock(&lock, CLOCK_MONOTONIC, &late) == 0);
    CHECK(pthread_rwlock_wrlock(&lock) == EDEADLK && pthread_rwlock_timedrdlock(&lock, &late) == EDEADLK);
    CHECK(pthread_join(start(read_too_late, NULL), NULL) == 0 && pthread_rwlock_unlock(&lock) == 0);
    CHECK(pthread_rwlock_destroy(&lock) == 0);
}

static pthread_barrier_t barrier;
static atomic_int before_barrier;

static void *come_to_barrier(void *unused)
{
    before_barrier++;
    int answer = pthread_barrier_wait(&barrier);
    CHECK(answer == 0 || answer == PTHREAD_BARRIER_SERIAL_THREAD);
    CHECK(before_barrier == 2);
    passed += answer == PTHREAD_BARRIER_SERIAL_THREAD;
    return unused;
}

static void barriers(void)
{
    CHECK(pthread_barrier_init(&barrier, NULL, 2) == 0);
    run_two(come_to_barrier, come_to_barrier);
    CHECK(passed == 1 && pthread_barrier_destroy(&barrier) == 0);
}

static pthread_spinlock_t spin;

static void *count_under_spin(void *unused)
{
    for (int i = 0; i < 2; i++) {
        CHECK(pthread_spin_lock(&spin) == 0);
        int before = passed;
        sched_yield();
        passed = before + 1;
        CHECK(pthread_spin_unlock(&spin) == 0);
    }
    return unused;
}

static void spin_locks(void)
{
    pthread_spin_init(&spin, PTHREAD_PROCESS_PRIVATE);
    run_two(count_under_spin, count_under_spin);
    CHECK(passed == 4 && pthread_spin_trylock(&spin) == 0 && pthread_spin_trylock(&spin) == EBUSY);
}

static pthread_once_t once = PTHREAD_ONCE_INIT;

static void pass_once(void)
{
    int before = passed;

    sched_yield();
    passed = before + 1;
}

static void *come_once(void *unused)
{
    CHECK(pthread_once(&once, pass_once) == 0 && passed == 1);
    return unused;
}

static void only_once(void) { run_two(come_once, come_once); }

static mtx_t c11_mutex;
static cnd_t c11_variable;
static bool is_set;

static int set_in_c11(void *unused)
{
    (void)unused;
    CHECK(mtx_lock(&c11_mutex) == thrd_success);
    is_set = true;
    CHECK(cnd_signal(&c11_variable) == thrd_success && mtx_unlock(&c11_mutex) == thrd_success);
    return 7;
}

static void of_c11(void)
{
    struct timespec late;
    thrd_t thread;
    int result;

    CHECK(mtx_init(&c11_mutex, mtx_plain) == thrd_success && cnd_init(&c11_variable) == thrd_success);
    CHECK(thrd_create(&thread, set_in_c11, NULL) == thrd_success);
    CHECK(mtx_lock(&c11_mutex) == thrd_success && mtx_trylock(&c11_mutex) == thrd_busy);
    while (!is_set)
        CHECK(cnd_wait(&c11_variable, &c11_mutex) == thrd_success);
    CHECK(timespec_get(&late, TIME_UTC) == TIME_UTC);
    CHECK(cnd_timedwait(&c11_variable, &c11_mutex, &late) == thrd_timedout);
    CHECK(mtx_unlock(&c11_mutex) == thrd_success && thrd_join(thread, &result) == thrd_success && result == 7);
    mtx_destroy(&c11_mutex);
    cnd_destroy(&c11_variable);
}

const Feature lock_features[] = {
    {"kinds", kinds},       {"robust", robust},         {"many_mutexes", many_mutexes}, {"semaphores", semaphores},
    {"rwlocks", rwlocks},   {"barriers", barriers},     {"spin_locks", spin_locks},     {"only_once", only_once},
    {"of_c11", of_c11},     {NULL, NULL},
};
