/* Handlers of signals that the program sends to itself: each runs at a point of its thread, or while that waits. */
#include <errno.h>
#include <poll.h>
#include <semaphore.h>
#include <signal.h>
#include <stdatomic.h>
#include <stdlib.h>
#include <unistd.h>

#include "features.h"

static pthread_mutex_t mutex = PTHREAD_MUTEX_INITIALIZER, other = PTHREAD_MUTEX_INITIALIZER;
static pthread_cond_t variable = PTHREAD_COND_INITIALIZER;
static sem_t handled;
static atomic_int inside, runs;
static atomic_bool is_set;
static pthread_t target;

static void count_and_post(int number)
{
    CHECK(number == SIGUSR1 && inside == 0);
    runs++;
    CHECK(sem_post(&handled) == 0);
}

static void catch_with(void (*handler)(int))
{
    struct sigaction action = {.sa_handler = handler}, old;

    sem_init(&handled, 0, 0);
    CHECK(sigaction(SIGUSR1, &action, NULL) == 0 && sigaction(SIGUSR1, NULL, &old) == 0);
    CHECK(old.sa_handler == handler);
}

/* Nothing of the handler comes between the two. */
static void *count_inside(void *unused)
{
    for (int i = 0; i < 3; i++) {
        inside++;
        for (int j = 0; j < 1000; j++)
            atomic_signal_fence(memory_order_seq_cst);
        inside--;
        sched_yield();
    }
    return unused;
}

static void *send_one(void *unused)
{
    CHECK(pthread_kill(target, SIGUSR1) == 0);
    CHECK(sem_wait(&handled) == 0 && runs == 1);
    return unused;
}

static void send_to(void *(*body)(void *))
{
    catch_with(count_and_post);
    target = start(body, NULL);
    pthread_t sender = start(send_one, NULL);
    CHECK(pthread_join(sender, NULL) == 0 && pthread_join(target, NULL) == 0);
}

static void *yield_until_handled(void *unused)
{
    while (runs == 0)
        count_inside(NULL);
    return unused;
}

static void at_points(void) { send_to(yield_until_handled); }

/* Who has the mutex gives it only when the handler of the one who waits for it has run. */
static void *lock_when_handled(void *unused)
{
    is_set = true;
    CHECK(pthread_mutex_lock(&mutex) == 0 && runs == 1);
    CHECK(pthread_mutex_unlock(&mutex) == 0);
    return unused;
}

static void while_it_waits(void)
{
    catch_with(count_and_post);
    CHECK(pthread_mutex_lock(&mutex) == 0);
    target = start(lock_when_handled, NULL);
    while (!is_set)
        sched_yield();
    send_one(NULL);
    CHECK(pthread_mutex_unlock(&mutex) == 0 && pthread_join(target, NULL) == 0);
}

static void *wait_on_variable(void *unused)
{
    CHECK(pthread_mutex_lock(&mutex) == 0);
    while (!is_set)
        CHECK(pthread_cond_wait(&variable, &mutex) == 0);
    CHECK(pthread_mutex_unlock(&mutex) == 0 && runs == 1);
    return unused;
}

static void *send_and_signal(void *unused)
{
    send_one(unused);
    CHECK(pthread_mutex_lock(&mutex) == 0);
    is_set = true;
    CHECK(pthread_cond_signal(&variable) == 0 && pthread_mutex_unlock(&mutex) == 0);
    return unused;
}

static void in_a_wait(void)
{
    catch_with(count_and_post);
    target = start(wait_on_variable, NULL);
    pthread_t sender = start(send_and_signal, NULL);
    CHECK(pthread_join(sender, NULL) == 0 && pthread_join(target, NULL) == 0);
}

/* The signal comes before the sleep, or within it. */
static void *sleep_long(void *unused)
{
    struct timespec time = {100, 0}, rest = {0, 0};

    if (nanosleep(&time, &rest) != 0)
        CHECK(errno == EINTR && rest.tv_sec >= 99 && runs == 1);
    return unused;
}

static void in_a_sleep(void) { send_to(sleep_long); }

static void *poll_long(void *unused)
{
    int ends[2];

    CHECK(pipe(ends) == 0);
    struct pollfd file = {ends[0], POLLIN, 0};
    int answer = poll(&file, 1, 100000);
    CHECK(answer == 0 || (answer == -1 && errno == EINTR && runs == 1));
    return unused;
}

static void in_a_poll(void) { send_to(poll_long); }

static void *suspend(void *unused)
{
    sigset_t blocked, none;

    sigemptyset(&none);
    sigemptyset(&blocked);
    sigaddset(&blocked, SIGUSR1);
    CHECK(pthread_sigmask(SIG_BLOCK, &blocked, NULL) == 0);
    is_set = true;
    sched_yield();
    CHECK(runs == 0);
    CHECK(sigsuspend(&none) == -1 && errno == EINTR && runs == 1);
    return unused;
}

static void suspends(void)
{
    catch_with(count_and_post);
    target = start(suspend, NULL);
    while (!is_set)
        sched_yield();
    pthread_t sender = start(send_one, NULL);
    CHECK(pthread_join(sender, NULL) == 0 && pthread_join(target, NULL) == 0);
}

static void own_signals(void)
{
    sigset_t blocked;

    catch_with(count_and_post);
    CHECK(pthread_join(start(count_inside, NULL), NULL) == 0);
    CHECK(raise(SIGUSR1) == 0 && runs == 1);
    CHECK(pthread_kill(pthread_self(), SIGUSR1) == 0 && runs == 2);
    CHECK(kill(getpid(), SIGUSR1) == 0 && runs == 3);
    sigemptyset(&blocked);
    sigaddset(&blocked, SIGUSR1);
    CHECK(pthread_sigmask(SIG_BLOCK, &blocked, NULL) == 0);
    CHECK(raise(SIGUSR1) == 0 && runs == 3);
    CHECK(pthread_sigmask(SIG_UNBLOCK, &blocked, NULL) == 0 && runs == 4);
    CHECK(signal(SIGUSR1, SIG_DFL) == count_and_post);
}

static void lock_in_handler(int number)
{
    (void)number;
    pthread_mutex_lock(&mutex);
}

static void *lock_other(void *unused)
{
    is_set = true;
    pthread_mutex_lock(&other);
    return unused;
}

/* The other thread waits for a mutex when its handler wants another one. */
static void handler_locks(void)
{
    catch_with(lock_in_handler);
    pthread_mutex_lock(&other);
    target = start(lock_other, NULL);
    while (!is_set)
        sched_yield();
    sleep(1);
    pthread_kill(target, SIGUSR1);
    pthread_join(target, NULL);
}

const Feature handler_features[] = {
    {"at_points", at_points},   {"while_it_waits", while_it_waits}, {"in_a_wait", in_a_wait},
    {"in_a_sleep", in_a_sleep}, {"in_a_poll", in_a_poll},           {"suspends", suspends},
    {"own_signals", own_signals}, {"handler_locks", handler_locks}, {NULL, NULL},
};
