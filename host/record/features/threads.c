/* Threads: names, ends, priorities. */
#include <limits.h>
#include <sched.h>
#include <stdatomic.h>
#include <sys/syscall.h>
#include <unistd.h>

#include "features.h"

static pthread_mutex_t mutex;
static sem_t go_on, is_there;
static _Atomic pid_t other;
static pthread_key_t key;

static void *lock_once(void *unused)
{
    (void)unused;
    lock_and_unlock(&mutex);
    return NULL;
}

/* The same pthread_t each time. */
static void names_used_again(void)
{
    make_inheriting(&mutex);
    for (int i = 0; i < 3; i++)
        run_to_end(lock_once, NULL);
}

static void *lock_detached(void *unused)
{
    (void)unused;
    atomic_store(&other, gettid());
    sem_post(&is_there);
    lock_and_unlock(&mutex);
    return NULL;
}

static void never_joined(void)
{
    make_inheriting(&mutex);
    pthread_detach(start(lock_detached, NULL));
    until(&is_there);
    until_gone(atomic_load(&other));
    lock_and_unlock(&mutex);
}

/* In each of the rounds, the last one too, behind the recorder's own. */
static void lock_in_destructor(void *rounds)
{
    long left = (long)rounds;

    lock_and_unlock(&mutex);
    if (left > 1)
        pthread_setspecific(key, (void *)(left - 1));
}

static void *have_destructor(void *unused)
{
    (void)unused;
    pthread_setspecific(key, (void *)(long)PTHREAD_DESTRUCTOR_ITERATIONS);
    return NULL;
}

static void destructors(void)
{
    make_inheriting(&mutex);
    pthread_key_create(&key, lock_in_destructor);
    run_to_end(have_destructor, NULL);
}

static void *wait_to_lock(void *unused)
{
    (void)unused;
    until(&go_on);
    lock_and_unlock(&mutex);
    return NULL;
}

static void named_at_once(void)
{
    struct sched_param parameters = {.sched_priority = 5};

    make_inheriting(&mutex);
    pthread_t thread = start(wait_to_lock, NULL);
    pthread_setschedparam(thread, SCHED_FIFO, &parameters);
    pthread_setschedprio(thread, 7);
    sem_post(&go_on);
    pthread_join(thread, NULL);
}

static void priorities(void)
{
    struct sched_param high = {.sched_priority = 10}, least = {.sched_priority = 0};

    make_inheriting(&mutex);
    pthread_setschedprio(pthread_self(), 0);
    pthread_setschedprio(pthread_self(), 3); /* not of real time: it is left out */
    pthread_setschedparam(pthread_self(), SCHED_FIFO, &high);
    pthread_setschedprio(pthread_self(), 20);
    pthread_setschedprio(pthread_self(), 0);
    pthread_setschedprio(pthread_self(), -1); /* no number of a history */
    run_to_end(lock_once, NULL);
    pthread_setschedparam(pthread_self(), SCHED_OTHER, &least);
    run_to_end(lock_once, NULL);
}

/* As rtkit makes threads: what such a one starts isn't of real time. */
static void reset_on_fork(void)
{
    struct sched_param high = {.sched_priority = 10};

    make_inheriting(&mutex);
    sched_setscheduler(0, SCHED_FIFO | SCHED_RESET_ON_FORK, &high);
    lock_and_unlock(&mutex);
    pthread_setschedprio(pthread_self(), 20);
    run_to_end(lock_once, NULL);
}

static void *lock_behind_main(void *unused)
{
    (void)unused;
    sleep_ms(10 * SHORT_MS);
    lock_and_unlock(&mutex);
    return NULL;
}

static void main_exits(void)
{
    make_inheriting(&mutex);
    start(lock_behind_main, NULL);
    lock_and_unlock(&mutex);
    pthread_exit(NULL);
}

static void *leave_by_the_kernel(void *unused)
{
    (void)unused;
    pthread_mutex_lock(&mutex);
    syscall(SYS_exit, 0); /* exit, of this thread alone */
    return NULL;
}

static void bare_exit(void)
{
    make_mutex(&mutex, PTHREAD_MUTEX_NORMAL, true, PTHREAD_PRIO_INHERIT);
    run_to_end(leave_by_the_kernel, NULL);
    pthread_mutex_lock(&mutex);
}

const Feature thread_features[] = {
    {"names_used_again", "threads that have the same pthread_t in turn", names_used_again},
    {"never_joined", "a detached thread", never_joined},
    {"destructors", "calls in the destructors of keys", destructors},
    {"named_at_once", "a thread gets priorities before it runs", named_at_once},
    {"priorities", "policies and priorities", priorities},
    {"reset_on_fork", "a thread of SCHED_FIFO whose threads are not", reset_on_fork},
    {"main_exits", "main ends before the program", main_exits},
    {"bare_exit", "a thread that ends by the exit call, without destructors", bare_exit},
    {NULL, NULL, NULL},
};
