/* The calls on mutexes, as the program makes them. */
#define _GNU_SOURCE
#include "record.h"

static Record *begin_on(What what, pthread_mutex_t *mutex, uintptr_t caller)
{
    be_ready();
    return begin_call(what, recorded_mutex(mutex, caller), NULL, caller);
}

/* A look at the mutex of a lock that has begun: one that is free may be free without an unlock that was seen. */
static Record *look(Record *call, pthread_mutex_t *mutex)
{
    if (call != NULL)
        call->found_free = __atomic_load_n(&mutex->__data.__lock, __ATOMIC_RELAXED) == 0;
    return call;
}

int pthread_mutex_lock(pthread_mutex_t *mutex)
{
    Record *call = look(begin_on(CALL_LOCK, mutex, CALLER), mutex);
    int answer = real.lock(mutex);

    answer_call(call, answer);
    return answer;
}

int pthread_mutex_trylock(pthread_mutex_t *mutex)
{
    Record *call = look(begin_on(CALL_TRYLOCK, mutex, CALLER), mutex);
    int answer = real.trylock(mutex);

    answer_call(call, answer);
    return answer;
}

int pthread_mutex_unlock(pthread_mutex_t *mutex)
{
    Record *call = begin_on(CALL_UNLOCK, mutex, CALLER);
    int answer = real.unlock(mutex);

    answer_call(call, answer);
    return answer;
}

int pthread_mutex_consistent(pthread_mutex_t *mutex)
{
    Record *call = begin_on(CALL_CONSISTENT, mutex, CALLER);
    int answer = real.consistent(mutex);

    answer_call(call, answer);
    return answer;
}

static Record *begin_timed_lock(pthread_mutex_t *mutex, clockid_t clock, const struct timespec *deadline,
                                uintptr_t caller)
{
    Object *locked = recorded_mutex(mutex, caller);

    return look(begin_timed(CALL_TIMEDLOCK, locked, NULL, clock, deadline, caller), mutex);
}

int pthread_mutex_timedlock(pthread_mutex_t *mutex, const struct timespec *deadline)
{
    be_ready();
    Record *call = begin_timed_lock(mutex, CLOCK_REALTIME, deadline, CALLER);
    int answer = real.timedlock(mutex, deadline);

    answer_call(call, answer);
    return answer;
}

int pthread_mutex_clocklock(pthread_mutex_t *mutex, clockid_t clock, const struct timespec *deadline)
{
    be_ready();
    Record *call = begin_timed_lock(mutex, clock, deadline, CALLER);
    int answer = real.clocklock(mutex, clock, deadline);

    answer_call(call, answer);
    return answer;
}

OLD_NAME("__pthread_mutex_lock", pthread_mutex_lock);
OLD_NAME("__pthread_mutex_trylock", pthread_mutex_trylock);
OLD_NAME("__pthread_mutex_unlock", pthread_mutex_unlock);
OLD_NAME("pthread_mutex_consistent_np", pthread_mutex_consistent);
