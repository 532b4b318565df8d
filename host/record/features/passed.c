/* What passes the recorder by, and is counted alone; and the names of what it records. */
#include <dlfcn.h>
#include <sched.h>
#include <signal.h>
#include <stdlib.h>
#include <threads.h>
#include <unistd.h>

#include "features.h"

/* As programs name it that were linked with an older glibc; on other machines the version has another number. */
#ifdef __x86_64__
__asm__(".symver old_rdlock, __pthread_rwlock_rdlock@GLIBC_2.2.5");
int old_rdlock(pthread_rwlock_t *);
#else
#define old_rdlock pthread_rwlock_rdlock
#endif

enum { NOBODY = 65534, FIRST_FREE = 3, MOST_FILES = 32 };

static pthread_mutex_t kept, plain = PTHREAD_MUTEX_INITIALIZER;
static sem_t is_held, may_end;

static void do_nothing(void) {}

static void use_rwlock(void)
{
    pthread_rwlock_t lock = PTHREAD_RWLOCK_INITIALIZER;
    struct timespec past = {0, 0};

    pthread_rwlock_rdlock(&lock);
    pthread_rwlock_tryrdlock(&lock);
    pthread_rwlock_timedrdlock(&lock, &past);
    pthread_rwlock_clockrdlock(&lock, CLOCK_MONOTONIC, &past);
    for (int i = 0; i < 4; i++)
        pthread_rwlock_unlock(&lock);
    pthread_rwlock_wrlock(&lock);
    pthread_rwlock_trywrlock(&lock);
    pthread_rwlock_timedwrlock(&lock, &past);
    pthread_rwlock_clockwrlock(&lock, CLOCK_MONOTONIC, &past);
    pthread_rwlock_unlock(&lock);
}

static void use_semaphore(void)
{
    struct timespec past = {0, 0};
    sem_t semaphore;

    sem_init(&semaphore, 0, 0);
    sem_post(&semaphore);
    sem_wait(&semaphore);
    sem_trywait(&semaphore);
    sem_timedwait(&semaphore, &past);
    sem_clockwait(&semaphore, CLOCK_MONOTONIC, &past);
}

static void use_others(void)
{
    pthread_once_t once = PTHREAD_ONCE_INIT;
    pthread_barrier_t barrier;
    pthread_spinlock_t spin;

    pthread_spin_init(&spin, PTHREAD_PROCESS_PRIVATE);
    pthread_spin_lock(&spin);
    pthread_spin_trylock(&spin);
    pthread_spin_unlock(&spin);
    pthread_barrier_init(&barrier, NULL, 1);
    pthread_barrier_wait(&barrier);
    pthread_once(&once, do_nothing);
}

static void use_c11(void)
{
    struct timespec past = {0, 0};
    once_flag once = ONCE_FLAG_INIT;
    mtx_t mutex;
    cnd_t variable;

    mtx_init(&mutex, mtx_timed);
    cnd_init(&variable);
    mtx_lock(&mutex);
    mtx_trylock(&mutex);
    mtx_timedlock(&mutex, &past);
    cnd_timedwait(&variable, &mutex, &past);
    cnd_signal(&variable);
    cnd_broadcast(&variable);
    mtx_unlock(&mutex);
    call_once(&once, do_nothing);
}

static void use_plain(void)
{
    pthread_cond_t variable = PTHREAD_COND_INITIALIZER;
    struct timespec past = {0, 0};

    pthread_mutex_lock(&plain);
    pthread_cond_timedwait(&variable, &plain, &past);
    pthread_cond_signal(&variable);
    pthread_mutex_unlock(&plain);
}

/* The library is found beside this program, if the call comes from its code. What it locks isn't seen. */
static void use_libraries(void)
{
    void *deep = dlopen("bound_past.so", RTLD_NOW | RTLD_DEEPBIND);
    void (*lock_there)(pthread_mutex_t *);

    if (deep == NULL)
        abort();
    *(void **)&lock_there = dlsym(deep, "lock_and_unlock_past");
    lock_there(&kept);
    dlopen("bound_past.so", RTLD_NOW | RTLD_NOLOAD);
    if (dlmopen(LM_ID_NEWLM, "bound_past.so", RTLD_NOW) == NULL)
        abort();
}

static void passed_by(void)
{
    struct sched_param least = {.sched_priority = 0};
    pthread_rwlock_t lock = PTHREAD_RWLOCK_INITIALIZER;

    make_inheriting(&kept);
    use_rwlock();
    old_rdlock(&lock);
    use_semaphore();
    use_others();
    use_c11();
    use_plain();
    use_libraries();
    sched_setscheduler(0, SCHED_OTHER, &least);
    sched_setparam(0, &least);
    lock_and_unlock(&kept);
}

static void *hold_to_end(void *unused)
{
    pthread_mutex_lock(&plain);
    sem_post(&is_held);
    until(&may_end);
    return unused;
}

/* Another thread gets the mutex, which is free: nobody saw that it was made anew. */
static void made_anew_while_held(void)
{
    static const pthread_mutex_t initialiser = PTHREAD_MUTEX_INITIALIZER;
    pthread_t thread = start(hold_to_end, NULL);

    until(&is_held);
    plain = initialiser;
    lock_and_unlock(&plain);
    sem_post(&may_end);
    pthread_join(thread, NULL);
}

static void *work(void *mutex)
{
    lock_and_unlock(mutex);
    pthread_setname_np(pthread_self(), "worker\t1");
    return NULL;
}

/* It stays until the program ends, and is told by the name of this function. */
static void *lock_twice(void *mutex)
{
    lock_and_unlock(mutex);
    sem_post(&is_held);
    for (;;)
        pause();
    return NULL;
}

static pthread_mutex_t named_mutexes[2];
static pthread_cond_t named_variable;

/* One thread names itself, one is named later and never joined, and one has no name but that of its function. */
static void names(void)
{
    struct timespec past = {0, 0};
    pthread_mutex_t *nameless = malloc(sizeof *nameless);

    make_inheriting(nameless);
    make_inheriting(&named_mutexes[1]);
    lock_and_unlock(nameless);
    pthread_mutex_lock(&named_mutexes[1]);
    pthread_cond_timedwait(&named_variable, &named_mutexes[1], &past);
    pthread_mutex_unlock(&named_mutexes[1]);
    run_to_end(work, &named_mutexes[1]);
    pthread_t later = start(lock_twice, nameless);
    until(&is_held);
    pthread_setname_np(later, "named_later");
    start(lock_twice, nameless);
    until(&is_held);
}

/* Closes the low numbers, as a daemon does, and gives its rights up. */
static void drops_rights(void)
{
    make_inheriting(&kept);
    lock_and_unlock(&kept);
    for (int file = FIRST_FREE; file < MOST_FILES; file++)
        close(file);
    if (chdir("/") != 0 || setgid(NOBODY) != 0 || setuid(NOBODY) != 0)
        abort();
    lock_and_unlock(&kept);
}

static void drops_rights_early(void)
{
    drops_rights();
    for (int i = 0; i < 500; i++)
        lock_and_unlock(&kept);
}

static void leaves_at_once(void)
{
    make_inheriting(&kept);
    lock_and_unlock(&kept);
    _exit(0);
}

static void is_killed(void)
{
    make_inheriting(&kept);
    lock_and_unlock(&kept);
    raise(SIGKILL);
}

const Feature passed_features[] = {
    {"passed_by", "each kind of call that isn't recorded", passed_by},
    {"made_anew_while_held", "a static initialiser over a mutex that another thread holds", made_anew_while_held},
    {"names", "threads and objects with names, and without", names},
    {"drops_rights", "a program that gives its rights up between two calls", drops_rights},
    {"drops_rights_early", "the same, and a thousand calls more", drops_rights_early},
    {"leaves_at_once", "_exit after a call", leaves_at_once},
    {"is_killed", "SIGKILL after a call", is_killed},
    {NULL, NULL, NULL},
};
