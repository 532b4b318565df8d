/* What the recorder leaves out or misses, beside what it keeps. */
#include <dlfcn.h>
#include <linux/capability.h>
#include <sched.h>
#include <signal.h>
#include <sys/syscall.h>
#include <threads.h>
#include <unistd.h>

#include "features.h"

static pthread_mutex_t mutex, kept;
static pthread_cond_t variable;
static sem_t is_there, is_done;
static pid_t waiter;

static void protected_mutex(void)
{
    make_inheriting(&kept);
    make_mutex(&mutex, PTHREAD_MUTEX_NORMAL, false, PTHREAD_PRIO_PROTECT);
    lock_and_unlock(&kept);
    if (pthread_mutex_lock(&mutex) == 0)
        pthread_mutex_unlock(&mutex);
}

static void make_shared(void)
{
    pthread_mutexattr_t attributes;

    pthread_mutexattr_init(&attributes);
    pthread_mutexattr_setprotocol(&attributes, PTHREAD_PRIO_INHERIT);
    pthread_mutexattr_setpshared(&attributes, PTHREAD_PROCESS_SHARED);
    pthread_mutex_init(&mutex, &attributes);
}

static void shared_alone(void)
{
    make_shared();
    lock_and_unlock(&mutex);
}

static void shared_mutex(void)
{
    make_shared();
    make_mutex(&kept, PTHREAD_MUTEX_NORMAL, true, PTHREAD_PRIO_INHERIT);
    lock_and_unlock(&kept);
    lock_and_unlock(&mutex);
}

static void shared_variable(void)
{
    pthread_condattr_t attributes;
    struct timespec deadline = {0, 0};

    make_inheriting(&kept);
    make_inheriting(&mutex);
    pthread_condattr_init(&attributes);
    pthread_condattr_setpshared(&attributes, PTHREAD_PROCESS_SHARED);
    pthread_cond_init(&variable, &attributes);
    lock_and_unlock(&kept);
    pthread_mutex_lock(&mutex);
    pthread_cond_timedwait(&variable, &mutex, &deadline);
    pthread_mutex_unlock(&mutex);
    lock_and_unlock(&kept);
}

/* As a library does that RTLD_DEEPBIND opens: it calls glibc itself. */
static void missed_unlock(void)
{
    void *library = dlopen("libc.so.6", RTLD_LAZY | RTLD_NOLOAD);
    int (*unlock)(pthread_mutex_t *);

    *(void **)&unlock = dlsym(library, "pthread_mutex_unlock");
    make_inheriting(&mutex);
    pthread_mutex_lock(&mutex);
    unlock(&mutex);
    lock_and_unlock(&mutex);
    lock_and_unlock(&mutex);
    dlclose(library);
}

/* A static initialiser is a store, which nobody sees. */
static void made_anew_unseen(void)
{
    static const pthread_mutex_t initialiser = PTHREAD_MUTEX_INITIALIZER;

    mutex = initialiser;
    pthread_mutex_lock(&mutex);
    mutex = initialiser;
    lock_and_unlock(&mutex);
}

static void c11_mutex(void)
{
    mtx_t c11;

    make_inheriting(&kept);
    mtx_init(&c11, mtx_plain);
    mtx_lock(&c11);
    lock_and_unlock(&kept);
    mtx_unlock(&c11);
}

static void unlock_it(void *unused)
{
    (void)unused;
    pthread_mutex_unlock(&mutex);
}

static void *wait_until_cancelled(void *unused)
{
    (void)unused;
    waiter = gettid();
    pthread_mutex_lock(&mutex);
    pthread_cleanup_push(unlock_it, NULL);
    sem_post(&is_there);
    pthread_cond_wait(&variable, &mutex);
    pthread_cleanup_pop(1);
    return NULL;
}

static void cancelled_wait(void)
{
    make_inheriting(&mutex);
    make_inheriting(&kept);
    pthread_cond_init(&variable, NULL);
    pthread_t thread = start(wait_until_cancelled, NULL);
    until(&is_there);
    until_blocked(waiter);
    lock_and_unlock(&kept);
    pthread_cancel(thread);
    pthread_join(thread, NULL);
    lock_and_unlock(&mutex);
}

static void *lock_asynchronously(void *unused)
{
    (void)unused;
    waiter = gettid();
    pthread_setcanceltype(PTHREAD_CANCEL_ASYNCHRONOUS, NULL);
    sem_post(&is_there);
    pthread_mutex_lock(&mutex);
    return NULL;
}

static void cancelled_lock(void)
{
    make_mutex(&mutex, PTHREAD_MUTEX_NORMAL, false, PTHREAD_PRIO_NONE);
    make_mutex(&kept, PTHREAD_MUTEX_NORMAL, false, PTHREAD_PRIO_NONE);
    pthread_mutex_lock(&mutex);
    pthread_t thread = start(lock_asynchronously, NULL);
    until(&is_there);
    until_blocked(waiter);
    pthread_cancel(thread);
    pthread_join(thread, NULL);
    lock_and_unlock(&kept);
}

static void lock_another(int number)
{
    (void)number;
    lock_and_unlock(&kept);
    sem_post(&is_done);
}

static void *lock_it(void *unused)
{
    (void)unused;
    waiter = gettid();
    sem_post(&is_there);
    lock_and_unlock(&mutex);
    return NULL;
}

static void call_in_handler(void)
{
    make_inheriting(&mutex);
    make_inheriting(&kept);
    signal(SIGUSR1, lock_another);
    pthread_mutex_lock(&mutex);
    pthread_t thread = start(lock_it, NULL);
    until(&is_there);
    until_blocked(waiter);
    pthread_kill(thread, SIGUSR1);
    until(&is_done);
    pthread_mutex_unlock(&mutex);
    pthread_join(thread, NULL);
    lock_and_unlock(&kept);
}

static void become_least(int number)
{
    (void)number;
    pthread_setschedprio(pthread_self(), 0);
    sem_post(&is_done);
}

static void priority_in_handler(void)
{
    make_inheriting(&mutex);
    signal(SIGUSR1, become_least);
    pthread_mutex_lock(&mutex);
    pthread_t thread = start(lock_it, NULL);
    until(&is_there);
    until_blocked(waiter);
    pthread_kill(thread, SIGUSR1);
    until(&is_done);
    pthread_mutex_unlock(&mutex);
    pthread_join(thread, NULL);
}

/* Gives up the right to real time. */
static void give_right_up(void)
{
    struct __user_cap_header_struct header = {_LINUX_CAPABILITY_VERSION_3, 0};
    struct __user_cap_data_struct rights[2] = {{0, 0, 0}, {0, 0, 0}};

    syscall(SYS_capget, &header, rights);
    rights[0].effective &= ~(1u << CAP_SYS_NICE);
    syscall(SYS_capset, &header, rights);
}

static void *lock_kept(void *unused)
{
    lock_and_unlock(&kept);
    return unused;
}

static void refused_priority(void)
{
    struct sched_param parameters = {.sched_priority = 10};

    make_inheriting(&kept);
    give_right_up();
    pthread_setschedparam(pthread_self(), SCHED_FIFO, &parameters);
    run_to_end(lock_kept, NULL);
}

/* The thread that there isn't has no line and no number. */
static void refused_thread(void)
{
    struct sched_param parameters = {.sched_priority = 10};
    pthread_attr_t attributes;
    pthread_t thread;

    make_inheriting(&kept);
    give_right_up();
    pthread_attr_init(&attributes);
    pthread_attr_setinheritsched(&attributes, PTHREAD_EXPLICIT_SCHED);
    pthread_attr_setschedpolicy(&attributes, SCHED_FIFO);
    pthread_attr_setschedparam(&attributes, &parameters);
    if (pthread_create(&thread, &attributes, lock_kept, NULL) == 0)
        pthread_join(thread, NULL);
    run_to_end(lock_kept, NULL);
}

const Feature left_out_features[] = {
    {"protected_mutex", "PTHREAD_PRIO_PROTECT", protected_mutex},
    {"shared_mutex", "a mutex shared between processes, and a robust one", shared_mutex},
    {"shared_alone", "nothing but a mutex shared between processes", shared_alone},
    {"shared_variable", "a variable shared between processes", shared_variable},
    {"missed_unlock", "an unlock that no library can wrap", missed_unlock},
    {"made_anew_unseen", "a static initialiser that is written again", made_anew_unseen},
    {"c11_mutex", "mtx_t", c11_mutex},
    {"cancelled_wait", "a thread that is cancelled inside a wait", cancelled_wait},
    {"cancelled_lock", "a thread that is cancelled inside a lock", cancelled_lock},
    {"call_in_handler", "a signal's handler that locks while its thread waits for another mutex", call_in_handler},
    {"priority_in_handler", "a signal's handler that gives a priority while its thread waits", priority_in_handler},
    {"refused_priority", "a priority that is answered EPERM", refused_priority},
    {"refused_thread", "a thread that can't be started", refused_thread},
    {NULL, NULL, NULL},
};
