/* What the core has not: semaphores, read-write locks, barriers, spin locks and what runs once. Here they are a few
   words of C over the same turns. What is free has glibc's own form, so that a child of a fork goes on with it. */
#define _GNU_SOURCE
#include <errno.h>
#include <semaphore.h>

#include "schedule.h"

/* SEMAPHORES: glibc has the value in the low half of the first 64 bits. */

static uint32_t *value_of(const sem_t *semaphore) { return (uint32_t *)(uintptr_t)semaphore; }

static bool has_value(const Thread *thread) { return *value_of(thread->waits_for) > 0; }

static bool has_value_or_is_due(const Thread *thread) { return has_value(thread) || is_due(thread); }

int sem_init(sem_t *semaphore, int shared, unsigned value)
{
    if (shared != 0 && enter("sem_init", CALLER) != NULL)
        stop(UNSUPPORTED, "a semaphore that is shared between processes");
    return BELOW(sem_init)(semaphore, shared, value);
}

sem_t *sem_open(const char *name, int flags, ...)
{
    if (enter("sem_open", CALLER) != NULL)
        stop(UNSUPPORTED, "sem_open: a semaphore that has a name");
    (void)name;
    (void)flags;
    errno = ENOSYS;
    return SEM_FAILED;
}

int sem_post(sem_t *semaphore)
{
    Thread *me = enter("sem_post", CALLER);

    if (me == NULL)
        return BELOW(sem_post)(semaphore);
    point(me);
    pass_order(me, semaphore);
    ++*value_of(semaphore);
    leave(me);
    return 0;
}

int sem_wait(sem_t *semaphore)
{
    Thread *me = enter("sem_wait", CALLER);

    if (me == NULL)
        return BELOW(sem_wait)(semaphore);
    point(me);
    wait_until(me, has_value, semaphore, "waits for a semaphore");
    --*value_of(semaphore);
    take_order(me, semaphore);
    leave(me);
    return 0;
}

/* Takes one if there is one; else the errno. */
static int take_one(Thread *me, sem_t *semaphore, int otherwise)
{
    bool has = *value_of(semaphore) > 0;

    *value_of(semaphore) -= has;
    if (has)
        take_order(me, semaphore);
    else
        find_nothing(me);
    leave(me);
    errno = has ? errno : otherwise;
    return has ? 0 : -1;
}

int sem_trywait(sem_t *semaphore)
{
    Thread *me = enter("sem_trywait", CALLER);

    if (me == NULL)
        return BELOW(sem_trywait)(semaphore);
    point(me);
    return take_one(me, semaphore, EAGAIN);
}

int sem_clockwait(sem_t *restrict semaphore, clockid_t clock, const struct timespec *restrict deadline)
{
    Thread *me = enter("sem_clockwait", CALLER);

    if (me == NULL)
        return BELOW(sem_clockwait)(semaphore, clock, deadline);
    point(me);
    if (*value_of(semaphore) == 0 && is_time(clock, deadline)) {
        set_deadline(me, clock, deadline);
        wait_until(me, has_value_or_is_due, semaphore, "waits for a semaphore");
    }
    return take_one(me, semaphore, is_time(clock, deadline) ? ETIMEDOUT : EINVAL);
}

int sem_timedwait(sem_t *restrict semaphore, const struct timespec *restrict deadline)
{
    return sem_clockwait(semaphore, CLOCK_REALTIME, deadline);
}

int sem_destroy(sem_t *semaphore) { return BELOW(sem_destroy)(semaphore); }

/* READ-WRITE LOCKS: who reads isn't known. Readers come after writers, and writers after all: what readers pass on has
   the address behind that of the lock. */

typedef struct {
    uint32_t readers, writer; /* how many, and the number of a thread; 0: nobody */
} Shared;

static Shared *shared_of(const pthread_rwlock_t *lock) { return (Shared *)(uintptr_t)lock; }

static const void *of_readers(const pthread_rwlock_t *lock) { return (const char *)lock + 1; }

static bool can_read(const Thread *thread) { return shared_of(thread->waits_for)->writer == 0; }

static bool can_write(const Thread *thread)
{
    return can_read(thread) && shared_of(thread->waits_for)->readers == 0;
}

static bool can_read_or_is_due(const Thread *thread) { return can_read(thread) || is_due(thread); }

static bool can_write_or_is_due(const Thread *thread) { return can_write(thread) || is_due(thread); }

int pthread_rwlock_init(pthread_rwlock_t *lock, const pthread_rwlockattr_t *attributes)
{
    int shared = PTHREAD_PROCESS_PRIVATE;

    if (attributes != NULL)
        pthread_rwlockattr_getpshared(attributes, &shared);
    if (shared == PTHREAD_PROCESS_SHARED && enter("pthread_rwlock_init", CALLER) != NULL)
        stop(UNSUPPORTED, "a read-write lock that is shared between processes");
    return BELOW(pthread_rwlock_init)(lock, attributes);
}

int pthread_rwlock_destroy(pthread_rwlock_t *lock)
{
    Thread *me = enter_if_on("pthread_rwlock_destroy", CALLER);

    if (me != NULL && (shared_of(lock)->readers != 0 || shared_of(lock)->writer != 0))
        misuse(me, "destroys a read-write lock that is held");
    if (me != NULL)
        leave(me);
    return BELOW(pthread_rwlock_destroy)(lock);
}

typedef struct {
    Condition *now, *in_time;
    bool writes;
    const char *how;
} Access;

static const Access reading = {can_read, can_read_or_is_due, false, "waits to read under a lock"};
static const Access writing = {can_write, can_write_or_is_due, true, "waits to write under a lock"};

static int take_access(Thread *me, pthread_rwlock_t *lock, const Access *access)
{
    take_order(me, lock);
    if (access->writes)
        take_order(me, of_readers(lock));
    if (access->writes)
        shared_of(lock)->writer = me->number;
    else
        shared_of(lock)->readers++;
    leave(me);
    return 0;
}

/* A wait for what the thread itself holds for writing never ends. POSIX has an error for it. */
static bool is_own(const Thread *me, const pthread_rwlock_t *lock)
{
    bool is_own = shared_of(lock)->writer == me->number;

    if (is_own && !options.errors)
        misuse(me, "waits for a read-write lock that it holds for writing");
    return is_own;
}

static int wait_for_access(Thread *me, pthread_rwlock_t *lock, const Access *access)
{
    point(me);
    if (is_own(me, lock)) {
        leave(me);
        return EDEADLK;
    }
    me->wants_lock = true;
    wait_until(me, access->now, lock, access->how);
    me->wants_lock = false;
    return take_access(me, lock, access);
}

static int try_access(Thread *me, pthread_rwlock_t *lock, const Access *access)
{
    const Shared *shared = shared_of(lock);

    point(me);
    if (shared->writer == 0 && (!access->writes || shared->readers == 0))
        return take_access(me, lock, access);
    find_nothing(me);
    leave(me);
    return EBUSY;
}

static int wait_in_time(Thread *me, pthread_rwlock_t *lock, const Access *access, clockid_t clock,
                        const struct timespec *deadline)
{
    int answer = is_time(clock, deadline) ? EDEADLK : EINVAL;

    point(me);
    if (answer == EDEADLK && !is_own(me, lock)) {
        set_deadline(me, clock, deadline);
        wait_until(me, access->in_time, lock, access->how);
        const Shared *shared = shared_of(lock);
        if (shared->writer == 0 && (!access->writes || shared->readers == 0))
            return take_access(me, lock, access);
        answer = ETIMEDOUT;
    }
    leave(me);
    return answer;
}

#define RWLOCK_CALL(call, how, access) \
    int call(pthread_rwlock_t *lock) \
    { \
        Thread *me = enter(#call, CALLER); \
\
        return me == NULL ? BELOW(call)(lock) : how(me, lock, &access); \
    }
RWLOCK_CALL(pthread_rwlock_rdlock, wait_for_access, reading)
RWLOCK_CALL(pthread_rwlock_wrlock, wait_for_access, writing)
RWLOCK_CALL(pthread_rwlock_tryrdlock, try_access, reading)
RWLOCK_CALL(pthread_rwlock_trywrlock, try_access, writing)

#define TIMED_RWLOCK_CALLS(clocked, timed, access) \
    int clocked(pthread_rwlock_t *restrict lock, clockid_t clock, const struct timespec *restrict deadline) \
    { \
        Thread *me = enter(#clocked, CALLER); \
\
        return me == NULL ? BELOW(clocked)(lock, clock, deadline) : wait_in_time(me, lock, &access, clock, deadline); \
    } \
\
    int timed(pthread_rwlock_t *restrict lock, const struct timespec *restrict deadline) \
    { \
        return clocked(lock, CLOCK_REALTIME, deadline); \
    }
TIMED_RWLOCK_CALLS(pthread_rwlock_clockrdlock, pthread_rwlock_timedrdlock, reading)
TIMED_RWLOCK_CALLS(pthread_rwlock_clockwrlock, pthread_rwlock_timedwrlock, writing)

int pthread_rwlock_unlock(pthread_rwlock_t *lock)
{
    Thread *me = enter("pthread_rwlock_unlock", CALLER);

    if (me == NULL)
        return BELOW(pthread_rwlock_unlock)(lock);
    point(me);
    Shared *shared = shared_of(lock);
    pass_order(me, shared->writer == me->number ? lock : of_readers(lock));
    if (shared->writer == me->number)
        shared->writer = 0;
    else if (shared->readers > 0 && shared->writer == 0)
        shared->readers--;
    else
        misuse(me, "unlocks a read-write lock that it doesn't hold");
    leave(me);
    return 0;
}

OLD_NAME("__pthread_rwlock_rdlock", pthread_rwlock_rdlock);
OLD_NAME("__pthread_rwlock_wrlock", pthread_rwlock_wrlock);
OLD_NAME("__pthread_rwlock_tryrdlock", pthread_rwlock_tryrdlock);
OLD_NAME("__pthread_rwlock_trywrlock", pthread_rwlock_trywrlock);
OLD_NAME("__pthread_rwlock_unlock", pthread_rwlock_unlock);

/* BARRIERS */

typedef struct {
    uint32_t wanted, here, round;
} Barrier;

/* What those pass on who come in one round isn't taken by those who are late to leave the round before. */
static const void *of_round(const Barrier *barrier, uint32_t round) { return (const char *)barrier + round % 2; }

static bool is_open(const Thread *thread) { return ((const Barrier *)thread->waits_for)->round != thread->seen; }

int pthread_barrier_init(pthread_barrier_t *barrier, const pthread_barrierattr_t *attributes, unsigned count)
{
    int shared = PTHREAD_PROCESS_PRIVATE;
    Thread *me = enter("pthread_barrier_init", CALLER);

    if (me == NULL)
        return BELOW(pthread_barrier_init)(barrier, attributes, count);
    if (attributes != NULL)
        pthread_barrierattr_getpshared(attributes, &shared);
    if (shared == PTHREAD_PROCESS_SHARED)
        stop(UNSUPPORTED, "a barrier that is shared between processes");
    *(Barrier *)barrier = (Barrier){.wanted = count};
    leave(me);
    return count == 0 ? EINVAL : 0;
}

int pthread_barrier_destroy(pthread_barrier_t *barrier)
{
    Thread *me = enter_if_on("pthread_barrier_destroy", CALLER);

    if (me == NULL)
        return BELOW(pthread_barrier_destroy)(barrier);
    if (((const Barrier *)barrier)->here != 0)
        misuse(me, "destroys a barrier at which a thread waits");
    leave(me);
    return 0;
}

int pthread_barrier_wait(pthread_barrier_t *barrier)
{
    Thread *me = enter("pthread_barrier_wait", CALLER);
    Barrier *passed = (Barrier *)barrier;
    int answer = 0;

    if (me == NULL)
        return BELOW(pthread_barrier_wait)(barrier);
    point(me);
    me->seen = passed->round;
    pass_order(me, of_round(passed, me->seen));
    if (++passed->here == passed->wanted) {
        passed->here = 0;
        passed->round++;
        answer = PTHREAD_BARRIER_SERIAL_THREAD;
    } else {
        wait_until(me, is_open, passed, "waits at a barrier");
    }
    take_order(me, of_round(passed, me->seen));
    leave(me);
    return answer;
}

/* SPIN LOCKS: glibc's own, tried again whenever one was unlocked. */

static uint32_t spin_unlocks;

static bool is_another_unlock(const Thread *thread) { return spin_unlocks != thread->seen; }

int pthread_spin_lock(pthread_spinlock_t *lock)
{
    Thread *me = enter("pthread_spin_lock", CALLER);

    if (me == NULL)
        return BELOW(pthread_spin_lock)(lock);
    point(me);
    me->wants_lock = true;
    while (BELOW(pthread_spin_trylock)(lock) == EBUSY) {
        me->seen = spin_unlocks;
        wait_until(me, is_another_unlock, (const void *)lock, "waits for a spin lock");
    }
    me->wants_lock = false;
    take_order(me, (const void *)lock);
    leave(me);
    return 0;
}

int pthread_spin_trylock(pthread_spinlock_t *lock)
{
    Thread *me = enter("pthread_spin_trylock", CALLER);

    if (me == NULL)
        return BELOW(pthread_spin_trylock)(lock);
    point(me);
    int answer = BELOW(pthread_spin_trylock)(lock);
    if (answer == EBUSY)
        find_nothing(me);
    else
        take_order(me, (const void *)lock);
    leave(me);
    return answer;
}

int pthread_spin_unlock(pthread_spinlock_t *lock)
{
    Thread *me = enter("pthread_spin_unlock", CALLER);

    if (me == NULL)
        return BELOW(pthread_spin_unlock)(lock);
    point(me);
    spin_unlocks++;
    pass_order(me, (const void *)lock);
    int answer = BELOW(pthread_spin_unlock)(lock);
    leave(me);
    return answer;
}
