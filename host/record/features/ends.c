/* How a history ends, and of which program it is. */
#include <signal.h>
#include <stdatomic.h>
#include <stdio.h>
#include <stdlib.h>
#include <sys/wait.h>
#include <unistd.h>

#include "features.h"

static pthread_mutex_t mutex;

static void many_calls(void)
{
    make_inheriting(&mutex);
    for (int i = 0; i < 20; i++)
        lock_and_unlock(&mutex);
}

static sem_t is_there;
static _Atomic pid_t waiter;

static void *wait_for_it(void *unused)
{
    atomic_store(&waiter, gettid());
    sem_post(&is_there);
    lock_and_unlock(&mutex);
    return unused;
}

/* The first thread has no record left when it gives the mutex up, for which the second one waits. */
static void cut_in_a_call(void)
{
    pthread_mutex_t other;

    make_inheriting(&mutex);
    make_inheriting(&other);
    pthread_mutex_lock(&mutex);
    pthread_t thread = start(wait_for_it, NULL);
    until(&is_there);
    until_blocked(atomic_load(&waiter));
    for (int i = 0; i < 5; i++)
        lock_and_unlock(&other);
    pthread_mutex_unlock(&mutex);
    pthread_join(thread, NULL);
}

static void *lock_it(void *unused)
{
    (void)unused;
    pthread_mutex_lock(&mutex);
    return NULL;
}

/* Two threads wait for each other; the test ends them by a signal. */
static void hangs(void)
{
    make_inheriting(&mutex);
    pthread_mutex_lock(&mutex);
    run_to_end(lock_it, NULL);
}

/* The first thread has a robust mutex, and the second one waits for it. */
static void hold_robust(void)
{
    make_mutex(&mutex, PTHREAD_MUTEX_NORMAL, true, PTHREAD_PRIO_INHERIT);
    pthread_mutex_lock(&mutex);
    start(wait_for_it, NULL);
    until(&is_there);
    until_blocked(atomic_load(&waiter));
}

static void holds_and_exits(void)
{
    hold_robust();
    exit(0);
}

static void holds_and_leaves(void)
{
    hold_robust();
    _exit(0);
}

static void holds_and_aborts(void)
{
    hold_robust();
    abort();
}

static void holds_and_is_ended(void)
{
    hold_robust();
    raise(SIGTERM);
}

static void alarm_of_its_own(void)
{
    alarm(1);
    hangs();
}

static void aborts(void)
{
    make_inheriting(&mutex);
    lock_and_unlock(&mutex);
    abort();
}

/* An access to no memory, as the processor tells it. */
static void faults(void)
{
    static int *volatile nowhere;

    make_inheriting(&mutex);
    lock_and_unlock(&mutex);
    *nowhere = 1;
}

static void later_than_all(void)
{
    make_inheriting(&mutex);
    lock_and_unlock(&mutex);
    skipped_seconds = 4294;
    lock_and_unlock(&mutex);
    skipped_seconds = 4295;
    lock_and_unlock(&mutex);
}

static void child_of_recorded(void)
{
    make_inheriting(&mutex);
    pthread_mutex_lock(&mutex);
    pid_t child = fork();
    if (child == 0) {
        pthread_mutex_unlock(&mutex);
        exit(0);
    }
    waitpid(child, NULL, 0);
    pthread_mutex_unlock(&mutex);
}

/* The parent makes no call, as many drivers of tests. */
static void child_alone(void)
{
    pid_t child = fork();

    if (child == 0) {
        make_inheriting(&mutex);
        lock_and_unlock(&mutex);
        exit(0);
    }
    waitpid(child, NULL, 0);
}

static void starts_another(void)
{
    char path[4096], command[4200];
    ssize_t length = readlink("/proc/self/exe", path, sizeof path - 1);

    path[length < 0 ? 0 : length] = '\0';
    make_inheriting(&mutex);
    pthread_mutex_lock(&mutex);
    snprintf(command, sizeof command, "'%s' many_calls", path);
    if (system(command) != 0)
        abort();
    pthread_mutex_unlock(&mutex);
}

/* A history of the child's would take the place of its parent's. */
static void outlive(pid_t parent)
{
    while (getppid() == parent)
        sleep_ms(1);
}

static void child_outlives(void)
{
    pid_t parent = getpid();

    make_inheriting(&mutex);
    lock_and_unlock(&mutex);
    if (fork() == 0) {
        outlive(parent);
        lock_and_unlock(&mutex);
        lock_and_unlock(&mutex);
    }
}

static void another_outlives(void)
{
    char path[4096];
    pid_t parent = getpid();
    ssize_t length = readlink("/proc/self/exe", path, sizeof path - 1);

    path[length < 0 ? 0 : length] = '\0';
    make_inheriting(&mutex);
    lock_and_unlock(&mutex);
    if (fork() == 0) {
        outlive(parent);
        execl(path, path, "many_calls", (char *)NULL);
        abort();
    }
}

static void *do_nothing(void *unused) { return unused; }

static void no_call(void) { run_to_end(do_nothing, NULL); }

const Feature end_features[] = {
    {"many_calls", "twenty locks and unlocks, for RECORD_MAX", many_calls},
    {"cut_in_a_call", "a lock waits when another thread has made all its records, for RECORD_MAX", cut_in_a_call},
    {"hangs", "two threads wait for good", hangs},
    {"alarm_of_its_own", "the same, up to SIGALRM", alarm_of_its_own},
    {"aborts", "a program that ends by abort", aborts},
    {"holds_to_the_end", "main returns with a robust mutex, for which another thread waits", hold_robust},
    {"holds_and_exits", "the same, by exit", holds_and_exits},
    {"holds_and_leaves", "the same, by _exit", holds_and_leaves},
    {"holds_and_aborts", "the same, by abort", holds_and_aborts},
    {"holds_and_is_ended", "the same, by SIGTERM", holds_and_is_ended},
    {"faults", "a program that writes where there is no memory", faults},
    {"later_than_all", "calls after 2^32 microseconds", later_than_all},
    {"child_of_recorded", "a fork after the first call", child_of_recorded},
    {"child_outlives", "a child that ends after its recorded parent", child_outlives},
    {"another_outlives", "a program that a recorded one has started, and which ends after it", another_outlives},
    {"child_alone", "a fork before the first call", child_alone},
    {"starts_another", "a recorded program starts another one", starts_another},
    {"no_call", "a program with a thread and no call", no_call},
    {NULL, NULL, NULL},
};
